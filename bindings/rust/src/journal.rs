//! The bytes of a journal with which a call is never interrupted, as the macros of `bootswap.h`.
//!
//! A call of the library records its writes in the journal, and [`Device`](crate::Device) makes
//! them on the flash. A [`Device`](crate::Device) checks these lengths by itself.

/// Of [`finish`](crate::Device::finish).
pub const FINISH: usize = 68;
/// Of [`withdraw`](crate::Device::withdraw).
pub const WITHDRAW: usize = 44;
/// Of [`confirm`](crate::Device::confirm).
pub const CONFIRM: usize = 20;

/// Of [`provision`](crate::Device::provision), for this number of images.
pub const fn provision(images: usize) -> usize {
    images.saturating_mul(24).saturating_add(144)
}

/// Of [`accept`](crate::Device::accept), for this number of components, whose slots have this
/// number of sectors, one slot for each component.
pub const fn accept(components: usize, sectors: usize) -> usize {
    components.saturating_mul(32).saturating_add(sectors.saturating_mul(12)).saturating_add(120)
}

/// Of [`piece`](crate::Device::piece), for this number of bytes.
pub const fn piece(length: usize) -> usize {
    length.saturating_add(31)
}

/// The longest step of a swap, with sectors of this length in bytes.
pub const fn step(sector_size: usize) -> usize {
    let programs = sector_size.saturating_add(255) / 256;
    sector_size.saturating_add(programs.saturating_mul(12)).saturating_add(32)
}

/// Of [`boot`](crate::Device::boot), for this number of images, and sectors of this length in
/// bytes. Each further [`step`] saves an attempt. No journal holds a complete swap: a boot whose
/// journal is full goes on with an empty one.
pub const fn boot(images: usize, sector_size: usize) -> usize {
    step(sector_size).saturating_add(after_steps(images))
}

/// What a boot of a device with this number of images writes after the last step of its swap.
pub(crate) const fn after_steps(images: usize) -> usize {
    images.saturating_mul(92).saturating_add(240)
}

/// A write in a journal.
pub(crate) enum Write<'j> {
    Program { at: u32, bytes: &'j [u8] },
    Erase { at: u32, length: u32 },
}

/// The length of what each write begins with: its kind, its address and its length.
const HEADER: usize = 12;

/// The number at the front of four bytes, the lowest byte first.
fn number_at(bytes: &[u8], at: usize) -> Option<u32> {
    let four: [u8; 4] = bytes.get(at..at + 4)?.try_into().ok()?;
    Some(u32::from_le_bytes(four))
}

/// Returns the write at the front of these bytes of a journal, and its length there, or `None` if
/// they don't begin with a write.
pub(crate) fn first_write(bytes: &[u8]) -> Option<(Write<'_>, usize)> {
    let (kind, at) = (number_at(bytes, 0)?, number_at(bytes, 4)?);
    let length = number_at(bytes, 8)?;
    match kind {
        0 => {
            let bytes = bytes.get(HEADER..)?.get(..length as usize)?;
            Some((Write::Program { at, bytes }, HEADER + bytes.len()))
        }
        1 => Some((Write::Erase { at, length }, HEADER)),
        _ => None,
    }
}
