//! What a flash has to do, and how the library reads it.

use core::fmt;

/// A NOR flash. Addresses are in bytes from the first byte of the map on.
///
/// The methods and constants are those of the trait of the same name in the crate
/// `embedded-storage`. The README has the adapter. The driver ensures what `docs/PORTING.md` of the
/// repository assumes of one:
///
/// - A write is complete before its function returns, and survives a power cut.
/// - A write changes its own range only, also if power fails in it. It may leave any bytes there.
/// - A read returns what is there, the same each time, also of what a power cut left half written.
/// - Each unit of 8 bytes that reads erased (0xFF) can be programmed. No others are.
/// - If a function fails, it returns an error. The device isn't booted then, and has to be opened
///   again.
///
/// For example, the map begins at some sector of a flash:
///
/// ```
/// use bootswap::{MemoryFlash, NorFlash};
///
/// /// The rest of a flash from an address on.
/// struct Rest<F, const FROM: u32>(F);
///
/// impl<F: NorFlash, const FROM: u32> NorFlash for Rest<F, FROM> {
///     type Error = F::Error;
///     const READ_SIZE: usize = F::READ_SIZE;
///     const WRITE_SIZE: usize = F::WRITE_SIZE;
///     const ERASE_SIZE: usize = F::ERASE_SIZE;
///     fn read(&mut self, offset: u32, bytes: &mut [u8]) -> Result<(), F::Error> {
///         self.0.read(FROM + offset, bytes)
///     }
///     fn capacity(&self) -> usize {
///         self.0.capacity() - FROM as usize
///     }
///     fn erase(&mut self, from: u32, to: u32) -> Result<(), F::Error> {
///         self.0.erase(FROM + from, FROM + to)
///     }
///     fn write(&mut self, offset: u32, bytes: &[u8]) -> Result<(), F::Error> {
///         self.0.write(FROM + offset, bytes)
///     }
/// }
///
/// let mut memory = [0xff; 2048];
/// let mut flash = Rest::<_, 512>(MemoryFlash::<512>(&mut memory));
/// flash.write(8, &[1; 8]).unwrap();
/// assert_eq!(flash.capacity(), 1536);
/// assert_eq!(memory[520..528], [1; 8]);
/// ```
pub trait NorFlash {
    /// What a function returns if it fails.
    type Error;

    /// A read begins and ends at a multiple of this number of bytes. It divides the length of the
    /// flash. A flash that is mapped into memory isn't read by [`read`](Self::read).
    const READ_SIZE: usize;
    /// A program begins and ends at a multiple of this number of bytes: 1, 2, 4 or 8.
    const WRITE_SIZE: usize;
    /// An erase begins and ends at a multiple of this number of bytes. The device's sector is a
    /// multiple of it.
    const ERASE_SIZE: usize;

    /// Reads bytes from an address on.
    ///
    /// # Errors
    /// If the part reports one.
    fn read(&mut self, offset: u32, bytes: &mut [u8]) -> Result<(), Self::Error>;

    /// Returns the length of the flash in bytes.
    fn capacity(&self) -> usize;

    /// Erases the bytes from an address on, up to the address `to`, which isn't included, to 0xFF.
    ///
    /// # Errors
    /// If the part reports one, or the bytes may not be erased.
    fn erase(&mut self, from: u32, to: u32) -> Result<(), Self::Error>;

    /// Programs erased bytes from an address on. The address and the length are multiples of 8. The
    /// bytes are aligned to 4 if the journal of the device is, which a `#[repr(align(4))]` struct
    /// around it ensures.
    ///
    /// # Errors
    /// If the part reports one, or the bytes may not be programmed.
    fn write(&mut self, offset: u32, bytes: &[u8]) -> Result<(), Self::Error>;
}

/// A flash that the processor reads as memory. A device over it needs no copy.
///
/// ```
/// use bootswap::MappedFlash;
/// # use bootswap::NorFlash;
///
/// /// The flash of a microcontroller.
/// struct Part;
/// # impl NorFlash for Part {
/// #     type Error = ();
/// #     const READ_SIZE: usize = 1;
/// #     const WRITE_SIZE: usize = 8;
/// #     const ERASE_SIZE: usize = 4096;
/// #     fn read(&mut self, _: u32, _: &mut [u8]) -> Result<(), ()> { Ok(()) }
/// #     fn capacity(&self) -> usize { 416 * 1024 }
/// #     fn erase(&mut self, _: u32, _: u32) -> Result<(), ()> { Ok(()) }
/// #     fn write(&mut self, _: u32, _: &[u8]) -> Result<(), ()> { Ok(()) }
/// # }
///
/// /// Where the processor reads the first byte of the map.
/// const MAP: *const u8 = 0x0800_4000 as *const u8;
///
/// impl MappedFlash for Part {
///     fn contents(&self) -> &[u8] {
///         // SAFETY: the part has these bytes there, and only its methods with `&mut self`
///         // change them.
///         unsafe { core::slice::from_raw_parts(MAP, 416 * 1024) }
///     }
/// }
/// ```
pub trait MappedFlash: NorFlash {
    /// Returns the contents of the flash, from the first byte of the map on. After a write they are
    /// the new ones.
    ///
    /// An implementation for a part makes this slice of an address, by `unsafe` code of its own.
    /// The device holds the slice during a call of the library, and no function that writes runs
    /// then.
    fn contents(&self) -> &[u8];
}

impl<F: NorFlash> NorFlash for &mut F {
    type Error = F::Error;
    const READ_SIZE: usize = F::READ_SIZE;
    const WRITE_SIZE: usize = F::WRITE_SIZE;
    const ERASE_SIZE: usize = F::ERASE_SIZE;

    fn read(&mut self, offset: u32, bytes: &mut [u8]) -> Result<(), Self::Error> {
        F::read(self, offset, bytes)
    }

    fn capacity(&self) -> usize {
        F::capacity(self)
    }

    fn erase(&mut self, from: u32, to: u32) -> Result<(), Self::Error> {
        F::erase(self, from, to)
    }

    fn write(&mut self, offset: u32, bytes: &[u8]) -> Result<(), Self::Error> {
        F::write(self, offset, bytes)
    }
}

impl<F: MappedFlash> MappedFlash for &mut F {
    fn contents(&self) -> &[u8] {
        F::contents(self)
    }
}

/// How the library reads the flash of a device.
pub struct Memory<'a, F>(Kind<'a, F>);

impl<F> fmt::Debug for Memory<'_, F> {
    fn fmt(&self, to: &mut fmt::Formatter<'_>) -> fmt::Result {
        match &self.0 {
            Kind::Mapped(_) => to.write_str("Mapped"),
            Kind::Copy(memory) => write!(to, "Copy of {} bytes", memory.len()),
        }
    }
}

enum Kind<'a, F> {
    Mapped(fn(&F) -> &[u8]),
    Copy(&'a mut [u8]),
}

impl<'a, F: NorFlash> Memory<'a, F> {
    /// The library reads a copy of the flash in this memory. It has the length of the map,
    /// [`Setup::map_length`](crate::Setup::map_length), or of more whole sectors. The device reads
    /// the flash into it when it is opened, and performs each write on both.
    pub fn copy(memory: &'a mut [u8]) -> Self {
        Self(Kind::Copy(memory))
    }

    /// The library reads the flash itself, which is mapped into memory.
    pub fn mapped() -> Self
    where
        F: MappedFlash,
    {
        Self(Kind::Mapped(F::contents))
    }

    /// Returns the bytes that the library reads.
    pub(crate) fn bytes<'b>(&'b self, flash: &'b F) -> &'b [u8] {
        match &self.0 {
            Kind::Mapped(contents) => contents(flash),
            Kind::Copy(memory) => memory,
        }
    }

    /// Returns the copy, if there is one.
    pub(crate) fn copy_mut(&mut self) -> Option<&mut [u8]> {
        match &mut self.0 {
            Kind::Mapped(_) => None,
            Kind::Copy(memory) => Some(memory),
        }
    }
}

/// A flash in memory of the caller, for tests and examples, in sectors of `SECTOR` bytes.
///
/// ```
/// use bootswap::{MemoryFlash, NorFlash};
///
/// let mut memory = [0xff; 1024];
/// let mut flash = MemoryFlash::<512>(&mut memory);
/// assert!(flash.write(8, &[0; 8]).is_ok());
/// assert!(flash.write(8, &[0; 8]).is_err(), "these bytes aren't erased");
/// assert!(flash.erase(0, 512).is_ok());
/// ```
#[derive(Debug)]
pub struct MemoryFlash<'a, const SECTOR: usize>(
    /// The bytes of the flash.
    pub &'a mut [u8],
);

/// Why a [`MemoryFlash`] makes no read or write.
#[derive(Clone, Copy, Debug, PartialEq, Eq)]
pub enum MemoryFault {
    /// A range that isn't within the flash, or isn't of whole units.
    OutOfRange,
    /// A program of bytes that aren't erased.
    NotErased,
}

impl fmt::Display for MemoryFault {
    fn fmt(&self, to: &mut fmt::Formatter<'_>) -> fmt::Result {
        to.write_str(match self {
            Self::OutOfRange => "the range isn't of whole units within the flash",
            Self::NotErased => "the bytes aren't erased",
        })
    }
}

impl<const SECTOR: usize> MemoryFlash<'_, SECTOR> {
    /// Returns a range of whole units of this length.
    fn range(&mut self, from: usize, to: usize, unit: usize) -> Result<&mut [u8], MemoryFault> {
        if from % unit != 0 || to % unit != 0 {
            return Err(MemoryFault::OutOfRange);
        }
        self.0.get_mut(from..to).ok_or(MemoryFault::OutOfRange)
    }
}

impl<const SECTOR: usize> NorFlash for MemoryFlash<'_, SECTOR> {
    type Error = MemoryFault;
    const READ_SIZE: usize = 1;
    const WRITE_SIZE: usize = 8;
    const ERASE_SIZE: usize = SECTOR;

    fn read(&mut self, offset: u32, bytes: &mut [u8]) -> Result<(), MemoryFault> {
        let from = offset as usize;
        bytes.copy_from_slice(self.range(from, from + bytes.len(), 1)?);
        Ok(())
    }

    fn capacity(&self) -> usize {
        self.0.len()
    }

    fn erase(&mut self, from: u32, to: u32) -> Result<(), MemoryFault> {
        self.range(from as usize, to as usize, SECTOR)?.fill(0xff);
        Ok(())
    }

    fn write(&mut self, offset: u32, bytes: &[u8]) -> Result<(), MemoryFault> {
        let from = offset as usize;
        let range = self.range(from, from + bytes.len(), Self::WRITE_SIZE)?;
        if range.iter().any(|it| *it != 0xff) {
            return Err(MemoryFault::NotErased);
        }
        range.copy_from_slice(bytes);
        Ok(())
    }
}

impl<const SECTOR: usize> MappedFlash for MemoryFlash<'_, SECTOR> {
    fn contents(&self) -> &[u8] {
        self.0
    }
}
