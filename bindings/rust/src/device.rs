//! A device over a flash: makes each call of the library, then performs the writes that the call
//! recorded in the journal, on the flash and on the copy of it if there is one.
//!
//! It does in Rust what `driver.c` does, and not by `driver.c`: a function of the flash may return
//! an error of any type, and may panic, which must not unwind through C. And the slice of a mapped
//! flash ends before a write begins, as Rust asks. `driver.c` holds a pointer to it all the time.

use core::fmt;

use crate::flash::{Memory, NorFlash};
use crate::image::{Description, Side, SlotError};
use crate::journal::{self, Write};
use crate::library::{self, Call};
use crate::numbers::{Fault, ImageFault, Phase, Status};
use crate::setup::Setup;
use crate::sys;
use crate::text::text_of;
use crate::values::{Boot, Component, Error, Images, State, Texts};

/// A device over a flash of the type `F`, with buffers of the caller.
///
/// ```
/// use bootswap::{make_image, Component, Decision, Device, Error, Fault, Memory, MemoryFlash};
/// use bootswap::{ImageParts, Images, MemoryFault, Request, Setup, Version};
///
/// const SETUP: Setup = Setup::new(512, &[2], 1);
/// let mut flash = [0xff; SETUP.map_length()];
/// let mut journal = [0; SETUP.boot_journal_length() + 1024];
///
/// // As a factory: an image at the front of the primary slot.
/// let old = ImageParts { version: Version::new(1, 0, 0), ..ImageParts::default() };
/// make_image(&old, b"the old body", &mut flash).unwrap();
///
/// // A loader. Its flash is mapped into memory.
/// let part = MemoryFlash::<512>(&mut flash);
/// let mut device = Device::open(SETUP, part, Memory::mapped(), &mut journal)?;
/// assert_eq!(device.boot().unwrap_err(), Error::Refused(Fault::NotProvisioned));
/// device.provision()?;
/// assert_eq!(device.boot()?.decision(), Decision::Plain);
///
/// // An application takes an upload of a new image.
/// let mut file = [0; 200];
/// let new = ImageParts { version: Version::new(1, 1, 0), ..ImageParts::default() };
/// let length = make_image(&new, b"the new body", &mut file).unwrap();
/// device.accept(1, &[Component::of(0, &file[..length], Request::Test)])?;
/// for bytes in file[..length].chunks(100) {
///     device.piece(0, bytes)?;
/// }
/// device.finish(0)?;
///
/// // The next boot swaps it in, on trial, and the application confirms it.
/// let boot = device.boot()?;
/// assert_eq!(boot.decision(), Decision::Trial(Images::from_bits(1)));
/// assert_eq!(boot.versions(), [new.version]);
/// device.confirm(0)?;
/// # Ok::<(), Error<MemoryFault>>(())
/// ```
pub struct Device<'a, F: NorFlash> {
    setup: Setup,
    flash: F,
    memory: Memory<'a, F>,
    journal: &'a mut [u8],
    saved: sys::SavedState,
    result: sys::CallResult,
    reverted: Images,
    is_closed: bool,
    is_application: bool,
}

/// The length of what one program writes: whole units of this number of bytes.
const UNIT: usize = 8;

/// The attempts of a boot: how many bytes of a full journal each performs, the number of writes so
/// far, and how many further attempts may follow.
struct Attempts {
    limit: usize,
    writes: u64,
    left: u64,
}

impl<'a, F: NorFlash> Device<'a, F> {
    /// Opens a flash for a loader. The device isn't booted: call [`boot`](Self::boot). Reads the
    /// flash into the copy if there is one.
    ///
    /// `journal` is where a call records its writes: for a boot at least
    /// [`Setup::boot_journal_length`] bytes, for the others the lengths in
    /// [`journal`](crate::journal).
    ///
    /// # Errors
    /// [`Error::Sizes`], and [`Error::Flash`] if the flash can't be read.
    pub fn open(
        setup: Setup,
        flash: F,
        memory: Memory<'a, F>,
        journal: &'a mut [u8],
    ) -> Result<Self, Error<F::Error>> {
        Self::opened(setup, flash, memory, journal, false)
    }

    /// Opens a flash for an application that a loader started: the device is booted, without
    /// uploads. The application doesn't boot: that uses a boot of a trial, or reverts it.
    ///
    /// If the log says that a boot was interrupted, each later call is refused as
    /// [`Fault::NotBooted`].
    ///
    /// # Errors
    /// As [`open`](Self::open).
    ///
    /// ```
    /// use bootswap::{Device, Error, MappedFlash, Memory, Phase, Setup};
    ///
    /// // The setup is that of the loader.
    /// const SETUP: Setup = Setup::new(4096, &[32, 16], 3);
    ///
    /// /// Confirms the images on trial, if there are any: the application works.
    /// fn confirm<F: MappedFlash>(flash: F) -> Result<(), Error<F::Error>> {
    ///     let mut journal = [0; SETUP.boot_journal_length()];
    ///     let mut device = Device::resume(SETUP, flash, Memory::mapped(), &mut journal)?;
    ///     let state = device.state()?;
    ///     if state.phase == Phase::Trial {
    ///         state.set.iter().try_for_each(|image| device.confirm(image))?;
    ///     }
    ///     Ok(())
    /// }
    /// ```
    pub fn resume(
        setup: Setup,
        flash: F,
        memory: Memory<'a, F>,
        journal: &'a mut [u8],
    ) -> Result<Self, Error<F::Error>> {
        Self::opened(setup, flash, memory, journal, true)
    }

    fn opened(
        setup: Setup,
        flash: F,
        memory: Memory<'a, F>,
        journal: &'a mut [u8],
        is_application: bool,
    ) -> Result<Self, Error<F::Error>> {
        let mut device = Self {
            setup,
            flash,
            memory,
            journal,
            saved: sys::SavedState::ZERO,
            result: sys::CallResult::ZERO,
            reverted: Images::default(),
            is_closed: false,
            is_application,
        };
        device.reopen()?;
        Ok(device)
    }

    /// Opens the flash again, as [`open`](Self::open) or [`resume`](Self::resume) did: all uploads
    /// are closed. After an [`Error::Flash`] this is the only call that isn't [`Error::Closed`].
    ///
    /// # Errors
    /// As [`open`](Self::open). The device is closed then.
    pub fn reopen(&mut self) -> Result<(), Error<F::Error>> {
        self.clear();
        library::reset(&mut self.saved);
        self.is_closed = true;
        let length = self.memory.bytes(&self.flash).len();
        let sector = self.setup.sector_size();
        if F::WRITE_SIZE == 0
            || UNIT % F::WRITE_SIZE != 0
            || F::ERASE_SIZE == 0
            || sector % F::ERASE_SIZE != 0
            || F::READ_SIZE == 0
            || length % F::READ_SIZE != 0
            || length > self.flash.capacity()
            || u32::try_from(length).is_err()
        {
            return Err(Error::Sizes);
        }
        if let Some(copy) = self.memory.copy_mut() {
            self.flash.read(0, copy).map_err(Error::Flash)?;
        }
        self.is_closed = false;
        self.saved.is_booted = u8::from(self.is_application);
        Ok(())
    }

    /// Returns the flash, and ends the device.
    pub fn close(self) -> F {
        self.flash
    }

    /// Returns the flash. It isn't written beside the device.
    pub fn flash(&self) -> &F {
        &self.flash
    }

    /// Returns the setup.
    pub fn setup(&self) -> &Setup {
        &self.setup
    }

    /// Returns the flash as the library reads it: the bytes of the map.
    pub fn contents(&self) -> &[u8] {
        self.memory.bytes(&self.flash)
    }

    /// Returns whether the device is booted.
    pub fn is_booted(&self) -> bool {
        self.saved.is_booted == 1
    }

    /// Returns the images that the last call reverted, if it was a boot, also if it failed.
    pub fn reverted(&self) -> Images {
        self.reverted
    }

    /// Returns the number of writes of the flash that the last call made, if none failed.
    pub fn writes(&self) -> u64 {
        self.result.writes
    }

    /// Provisions the flash: the images at the front of the primary slots run. Slots and scratch
    /// are unchanged. A device is provisioned once, at the factory. Then call [`boot`](Self::boot).
    ///
    /// # Errors
    /// [`Error::Refused`] with [`Fault::RunningDamaged`] or [`Fault::RunningInvalid`]: nothing is
    /// written.
    pub fn provision(&mut self) -> Result<(), Error<F::Error>> {
        self.make(journal::provision(self.setup.images()), |call| call.provision())
    }

    /// Boots, and continues until a boot answers. After a boot that reverts a set it boots once
    /// more: that boot reads all images of the device. Start the images if it returns a [`Boot`],
    /// and not otherwise.
    ///
    /// A boot whose journal is full goes on with an empty one.
    ///
    /// # Errors
    /// [`Error::Refused`] with [`Fault::NotProvisioned`], [`Fault::RunningDamaged`] or
    /// [`Fault::RunningInvalid`], and the others that are no refusals. The device isn't booted
    /// then.
    pub fn boot(&mut self) -> Result<Boot, Error<F::Error>> {
        self.boot_by(&mut |call| call.boot())
    }

    /// Boots as [`boot`](Self::boot) does, and writes the texts of the boot to the front of two
    /// buffers. Buffers of [`MAX_TABLE_LENGTH`](crate::MAX_TABLE_LENGTH) and
    /// [`MAX_REPORT_LENGTH`](crate::MAX_REPORT_LENGTH) bytes are always large enough.
    ///
    /// # Errors
    /// As [`boot`](Self::boot).
    ///
    /// ```
    /// use bootswap::{make_image, Device, ImageParts, Memory, MemoryFlash, Setup};
    /// use bootswap::{MAX_REPORT_LENGTH, MAX_TABLE_LENGTH};
    ///
    /// const SETUP: Setup = Setup::new(512, &[2], 1);
    /// let mut flash = [0xff; SETUP.map_length()];
    /// make_image(&ImageParts::default(), b"a body", &mut flash).unwrap();
    /// let (part, mut journal) = (MemoryFlash::<512>(&mut flash), [0; 1024]);
    /// let mut device = Device::open(SETUP, part, Memory::mapped(), &mut journal)?;
    /// device.provision()?;
    /// let (mut table, mut report) = ([0; MAX_TABLE_LENGTH], [0; MAX_REPORT_LENGTH]);
    /// let (boot, texts) = device.boot_with_texts(&mut table, &mut report)?;
    /// assert_eq!(boot.versions().len(), 1);
    /// assert_eq!(texts.report, "run 0 0.0.0+0\n");
    /// # Ok::<(), bootswap::Error<bootswap::MemoryFault>>(())
    /// ```
    pub fn boot_with_texts<'t>(
        &mut self,
        table: &'t mut [u8],
        report: &'t mut [u8],
    ) -> Result<(Boot, Texts<'t>), Error<F::Error>> {
        let boot = self.boot_by(&mut |call| call.boot_with_texts(table, report))?;
        let (table_length, report_length) = (boot.result.table_length, boot.result.report_length);
        let texts = Texts {
            table: text_of(table, table_length as usize),
            report: text_of(report, report_length as usize),
        };
        Ok((boot, texts))
    }

    /// Accepts a manifest: opens an upload for each image it lists, and cancels pending requests
    /// for those images. The sequence number rises from manifest to manifest, or stays.
    ///
    /// # Errors
    /// [`Error::Refused`] with [`Fault::NotBooted`], [`Fault::OnTrial`], [`Fault::Manifest`], or
    /// [`Fault::Upload`] for an old sequence, an image that is too big, or another running image
    /// than the precursor. Nothing changed then.
    pub fn accept(
        &mut self,
        sequence: u32,
        components: &[Component],
    ) -> Result<(), Error<F::Error>> {
        let no_component = sys::Component {
            size: 0,
            image: 0,
            is_permanent: 0,
            has_precursor: 0,
            unused: 0,
            digest: [0; 32],
            precursor: [0; 32],
        };
        let count = u32::try_from(components.len()).unwrap_or(u32::MAX);
        let mut rows = [no_component; sys::MAX_IMAGES];
        let mut sectors = 0usize;
        for (to, from) in rows.iter_mut().zip(components) {
            *to = from.to_sys();
            sectors = self.setup.sectors(usize::from(from.image)).saturating_add(sectors);
        }
        let manifest = sys::Manifest { sequence, count, components: rows };
        let needed = journal::accept(components.len().min(sys::MAX_IMAGES), sectors);
        self.make(needed, |call| call.accept(&manifest))
    }

    /// Adds bytes to the upload of an image, any number of them.
    ///
    /// # Errors
    /// [`Error::Refused`] with [`Fault::NotBooted`], [`Fault::OnTrial`], or [`Fault::Upload`] if no
    /// upload is open, or there are more bytes than the manifest said.
    pub fn piece(&mut self, image: u8, bytes: &[u8]) -> Result<(), Error<F::Error>> {
        self.make(journal::piece(bytes.len()), |call| call.piece(image, bytes))
    }

    /// Finishes the upload of an image. The image is requested if the upload is complete, has the
    /// manifest's digest, and is an intact image: the next boot decides whether it takes it.
    ///
    /// # Errors
    /// [`Error::Refused`] as [`piece`](Self::piece), and with [`Fault::Upload`] if the file has
    /// another size or digest, or is no image: the upload is closed then.
    pub fn finish(&mut self, image: u8) -> Result<(), Error<F::Error>> {
        self.make(journal::FINISH, |call| call.finish(image))
    }

    /// Withdraws the request of an image.
    ///
    /// # Errors
    /// [`Error::Refused`] with [`Fault::NotBooted`], [`Fault::OnTrial`] or [`Fault::Upload`].
    pub fn withdraw(&mut self, image: u8) -> Result<(), Error<F::Error>> {
        self.make(journal::WITHDRAW, |call| call.withdraw(image))
    }

    /// Confirms an image of the set on trial. If each image of it is confirmed, the set stays.
    ///
    /// # Errors
    /// [`Error::Refused`] with [`Fault::NotBooted`] or [`Fault::NotOnTrial`].
    pub fn confirm(&mut self, image: u8) -> Result<(), Error<F::Error>> {
        self.make(journal::CONFIRM, |call| call.confirm(image))
    }

    /// Reads the state in the log of the flash. The device needn't be booted.
    ///
    /// # Errors
    /// [`Error::NotMade`] with [`Status::NoLog`], or what is wrong with the setup or the flash.
    pub fn state(&self) -> Result<State, Error<F::Error>> {
        let mut state = sys::State {
            kind: 0,
            set: 0,
            permanent: 0,
            left: 0,
            sequence: 0,
            floors: [0; sys::MAX_IMAGES],
        };
        let status = library::state(&self.setup.0, self.contents(), &mut state);
        if status != 0 {
            return Err(error_of(status));
        }
        Ok(State {
            phase: Phase::from_number(state.kind).ok_or(Error::Unknown(state.kind))?,
            set: Images::from_bits(state.set),
            is_permanent: state.permanent != 0,
            left: state.left,
            sequence: state.sequence,
            floors: state.floors,
        })
    }

    /// Describes the image at the front of a slot. The device needn't be booted.
    ///
    /// # Errors
    /// [`SlotError::Image`] if there is no intact image.
    pub fn slot(&self, image: u8, side: Side) -> Result<Description, SlotError> {
        let found = library::slot(&self.setup.0, self.contents(), image, side as u8);
        found.map(Description).map_err(|number| match ImageFault::from_number(number) {
            Some(fault) => SlotError::Image(fault),
            None => {
                Status::from_number(number).map_or(SlotError::Unknown(number), SlotError::NotMade)
            }
        })
    }

    fn clear(&mut self) {
        self.result = sys::CallResult::ZERO;
        self.reverted = Images::default();
    }

    /// Begins a call that asks for at most `needed` bytes of the journal.
    fn begin(&mut self, needed: usize) -> Result<(), Error<F::Error>> {
        self.clear();
        if self.is_closed {
            return Err(Error::Closed);
        }
        if self.journal.len() < needed {
            return Err(Error::JournalTooSmall);
        }
        Ok(())
    }

    /// Makes a call of the library in this number of bytes of the journal.
    fn call(&mut self, capacity: usize, call: impl FnOnce(&mut Call<'_>) -> u32) -> u32 {
        let length = self.journal.len();
        call(&mut Call {
            setup: &self.setup.0,
            flash: self.memory.bytes(&self.flash),
            saved: &mut self.saved,
            journal: &mut self.journal[..capacity.min(length)],
            result: &mut self.result,
        })
    }

    /// Makes a call once, and performs its writes.
    fn make(
        &mut self,
        needed: usize,
        call: impl FnOnce(&mut Call<'_>) -> u32,
    ) -> Result<(), Error<F::Error>> {
        self.begin(needed)?;
        let status = self.call(usize::MAX, call);
        self.perform(usize::MAX)?;
        match status {
            0 => Ok(()),
            _ => Err(self.error(status)),
        }
    }

    /// Returns the error of what the last call returned.
    fn error(&self, status: u32) -> Error<F::Error> {
        if status != Status::Refused.number() {
            return error_of(status);
        }
        let it = &self.result;
        Fault::from_numbers(it.fault, it.detail, it.check)
            .map_or(Error::Unknown(it.fault), Error::Refused)
    }

    /// Performs the writes of the journal in their order, up to the first that fails, or that
    /// doesn't end in the first `limit` bytes. `result` has the performed ones.
    fn perform(&mut self, limit: usize) -> Result<(), Error<F::Error>> {
        let performed = self.performed(limit);
        if performed.is_err() {
            self.clear_after_failure();
        }
        let (length, writes) = performed?;
        self.result.journal_length = length as u64;
        self.result.writes = writes;
        Ok(())
    }

    /// The flash isn't what the library counted on.
    fn clear_after_failure(&mut self) {
        self.result = sys::CallResult::ZERO;
        library::reset(&mut self.saved);
        self.is_closed = true;
    }

    fn performed(&mut self, limit: usize) -> Result<(usize, u64), Error<F::Error>> {
        let used = usize::try_from(self.result.journal_length).unwrap_or(usize::MAX);
        let (mut done, mut writes) = (0, 0);
        while done < used {
            let left = self.journal.get(done..used).ok_or(Error::Closed)?;
            let (write, length) = journal::first_write(left).ok_or(Error::Closed)?;
            if length > limit - done {
                break;
            }
            let map = self.memory.bytes(&self.flash).len();
            if !is_allowed(&write, map, self.setup.sector_size()) {
                return Err(Error::Closed);
            }
            perform_write(&write, &mut self.flash, self.memory.copy_mut()).map_err(Error::Flash)?;
            done += length;
            writes += 1;
        }
        Ok((done, writes))
    }

    /// Boots, and once more after a boot that reverted.
    fn boot_by(
        &mut self,
        call: &mut dyn FnMut(&mut Call<'_>) -> u32,
    ) -> Result<Boot, Error<F::Error>> {
        let begun = self.begin(self.setup.boot_journal_length());
        if matches!(begun, Err(Error::JournalTooSmall)) {
            library::reset(&mut self.saved);
        }
        begun?;
        let mut status = self.boot_once(call)?;
        if status == Status::Reverted.number() {
            self.reverted = Images::from_bits(self.result.set);
            status = self.boot_once(call)?;
        }
        match Status::from_number(status) {
            Some(it @ (Status::Booted | Status::TrialAgain)) => Ok(Boot {
                result: self.result,
                is_trial_again: it == Status::TrialAgain,
                reverted: self.reverted,
            }),
            // A revert leaves the log at rest, so the second boot has nothing to revert.
            Some(Status::Reverted) => {
                self.clear_after_failure();
                Err(Error::Closed)
            }
            _ => Err(self.error(status)),
        }
    }

    /// Boots, in one attempt or several. The number of writes includes those before.
    ///
    /// An attempt has N steps of a swap in its journal, and what follows the last step. So the
    /// attempt with the last step ends the boot. One that is cut performs the N steps alone, as if
    /// its journal ended there: otherwise it would erase a sector for a step that doesn't fit, and
    /// the next attempt again. If N steps are shorter than what a boot needs to get further, it
    /// performs everything.
    fn boot_once(
        &mut self,
        call: &mut dyn FnMut(&mut Call<'_>) -> u32,
    ) -> Result<u32, Error<F::Error>> {
        let step = journal::step(self.setup.sector_size());
        let after = journal::after_steps(self.setup.images());
        let steps = self.journal.len().saturating_sub(after) / step * step;
        let is_short = steps < journal::after_steps(sys::MAX_IMAGES);
        let mut attempts = Attempts {
            limit: if is_short { usize::MAX } else { steps },
            writes: self.result.writes,
            left: most_attempts(&self.setup),
        };
        loop {
            let status = self.call(steps.saturating_add(after), &mut *call);
            if self.is_answer(&mut attempts, status)? {
                return Ok(status);
            }
        }
    }

    /// Ends an attempt of a boot, and returns whether it answered. A flash that holds no state may
    /// cut each attempt, so there is an end to them.
    fn is_answer(&mut self, attempts: &mut Attempts, status: u32) -> Result<bool, Error<F::Error>> {
        let is_cut = status == Status::Cut.number();
        self.perform(if is_cut { attempts.limit } else { usize::MAX })?;
        attempts.writes += self.result.writes;
        self.result.writes = attempts.writes;
        if is_cut && attempts.left == 0 {
            return Err(Error::JournalTooSmall);
        }
        attempts.left = attempts.left.saturating_sub(u64::from(is_cut));
        Ok(!is_cut)
    }
}

impl<F: NorFlash> fmt::Debug for Device<'_, F> {
    fn fmt(&self, to: &mut fmt::Formatter<'_>) -> fmt::Result {
        to.debug_struct("Device")
            .field("setup", &self.setup)
            .field("memory", &self.memory)
            .field("is_booted", &self.is_booted())
            .finish_non_exhaustive()
    }
}

/// Returns the error of a number that is no refusal.
fn error_of<E>(status: u32) -> Error<E> {
    Status::from_number(status).map_or(Error::Unknown(status), Error::NotMade)
}

/// The most attempts of a boot that are cut, if the flash holds a state. It is proved that each of
/// them gets further: it counts a step of the swap, records another state, or settles a set. A swap
/// has three steps for each sector of its slots. A boot makes one swap at most, and five records.
fn most_attempts(setup: &Setup) -> u64 {
    let sectors: u64 =
        (0..setup.images().min(sys::MAX_IMAGES)).map(|it| setup.sectors(it) as u64).sum();
    3 * sectors + 16
}

/// Returns whether a write isn't empty, is within the flash, and is a sector or of whole units.
fn is_allowed(write: &Write<'_>, map: usize, sector: usize) -> bool {
    let (at, length, unit) = match write {
        Write::Program { at, bytes } => (*at as usize, bytes.len(), UNIT),
        Write::Erase { at, length } => (*at as usize, *length as usize, sector),
    };
    let is_whole = match write {
        Write::Program { .. } => length % unit == 0,
        Write::Erase { .. } => length == unit,
    };
    length > 0 && length <= map && at <= map - length && is_whole && at % unit == 0
}

/// Performs a write on a flash, and on the copy of it if there is one.
fn perform_write<F: NorFlash>(
    write: &Write<'_>,
    flash: &mut F,
    copy: Option<&mut [u8]>,
) -> Result<(), F::Error> {
    match write {
        Write::Program { at, bytes } => {
            flash.write(*at, bytes)?;
            let copied = copy.and_then(|it| it.get_mut(*at as usize..)?.get_mut(..bytes.len()));
            if let Some(range) = copied {
                range.copy_from_slice(bytes);
            }
        }
        Write::Erase { at, length } => {
            flash.erase(*at, at + length)?;
            let copied =
                copy.and_then(|it| it.get_mut(*at as usize..)?.get_mut(..*length as usize));
            if let Some(range) = copied {
                range.fill(0xff);
            }
        }
    }
    Ok(())
}
