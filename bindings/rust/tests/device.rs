//! Devices over a flash in memory whose functions fail, and power cuts at each write.

use bootswap::{
    check, choose, describe, make_image, Component, Decision, Dependency, Device, Error, Fault,
    ImageFault, ImageParts, Images, ManifestFault, MappedFlash, Memory, MemoryFault, MemoryFlash,
    NorFlash, Phase, Reason, Request, Setup, Side, SlotError, Status, UploadFault, Version,
    MAX_REPORT_LENGTH, MAX_TABLE_LENGTH,
};

const SECTOR: usize = 512;
const SETUP: Setup = Setup::new(SECTOR as u32, &[2, 2], 1);
const LENGTH: usize = SETUP.map_length();
const JOURNAL: usize = SETUP.boot_journal_length();
const OLD: Version = Version::new(1, 0, 0);
const NEW: Version = Version::new(2, 0, 0);
const BOTH: Images = Images::from_bits(3);

/// A flash that counts its writes. Write `fails_at`, counted from 1, leaves the front half of its
/// range new, and fails.
struct Flash {
    bytes: Vec<u8>,
    writes: usize,
    fails_at: usize,
}

#[derive(Clone, Copy, Debug, PartialEq)]
struct Failed;

impl Flash {
    fn part(&mut self) -> MemoryFlash<'_, SECTOR> {
        MemoryFlash(&mut self.bytes)
    }

    /// Counts a write of a range, and returns how much of it is made.
    fn begin(&mut self, length: usize) -> usize {
        self.writes += 1;
        if self.writes == self.fails_at {
            length / 2
        } else {
            length
        }
    }
}

impl NorFlash for Flash {
    type Error = Failed;
    const READ_SIZE: usize = 4;
    const WRITE_SIZE: usize = 4;
    const ERASE_SIZE: usize = 256;

    fn read(&mut self, offset: u32, bytes: &mut [u8]) -> Result<(), Failed> {
        self.part().read(offset, bytes).map_err(|_| Failed)
    }

    fn capacity(&self) -> usize {
        self.bytes.len()
    }

    fn erase(&mut self, from: u32, to: u32) -> Result<(), Failed> {
        let made = self.begin((to - from) as usize);
        assert_eq!((from as usize % SECTOR, (to - from) as usize), (0, SECTOR));
        self.bytes[from as usize..from as usize + made].fill(0xff);
        if self.writes == self.fails_at {
            Err(Failed)
        } else {
            Ok(())
        }
    }

    fn write(&mut self, offset: u32, bytes: &[u8]) -> Result<(), Failed> {
        let made = self.begin(bytes.len()) / 8 * 8;
        assert_eq!(self.part().write(offset, &bytes[..made]), Ok(()));
        if self.writes == self.fails_at {
            Err(Failed)
        } else {
            Ok(())
        }
    }
}

impl MappedFlash for Flash {
    fn contents(&self) -> &[u8] {
        &self.bytes
    }
}

/// An image of a version that needs the same version of another image.
fn image(version: Version, other: u32) -> Vec<u8> {
    let needs = [Dependency { image: other, minimum: version }];
    let parts = ImageParts { version, dependencies: &needs, ..ImageParts::default() };
    let mut bytes = vec![0; 2 * SECTOR];
    let length = make_image(&parts, &[version.major; 500], &mut bytes).unwrap();
    bytes.truncate(length);
    bytes
}

/// A flash as a factory writes it, with images of version 1.
fn factory() -> Flash {
    let mut bytes = vec![0xff; LENGTH];
    for number in 0..2 {
        let (at, file) = (SETUP.primary_slot_at(number).unwrap(), image(OLD, 1 - number as u32));
        bytes[at..at + file.len()].copy_from_slice(&file);
    }
    Flash { bytes, writes: 0, fails_at: 0 }
}

fn upload(device: &mut Device<&mut Flash>, request: Request) -> Result<(), Error<Failed>> {
    let files = [image(NEW, 1), image(NEW, 0)];
    let components = [Component::of(0, &files[0], request), Component::of(1, &files[1], request)];
    device.accept(1, &components)?;
    for (number, file) in (0..).zip(&files) {
        for bytes in file.chunks(300) {
            device.piece(number, bytes)?;
        }
        device.finish(number)?;
    }
    Ok(())
}

/// A provisioned flash for which both new images are requested, and that counts from 0.
fn requested(request: Request) -> Flash {
    let (mut flash, mut copy, mut journal) = (factory(), vec![0; LENGTH], [0; JOURNAL]);
    let mut device =
        Device::open(SETUP, &mut flash, Memory::copy(&mut copy), &mut journal).unwrap();
    device.provision().unwrap();
    assert_eq!(device.boot().unwrap().decision(), Decision::Plain);
    upload(&mut device, request).unwrap();
    flash.writes = 0;
    flash
}

/// Boots, and returns the decision, the versions and the reverted images.
fn boot(
    flash: &mut Flash,
    journal: usize,
) -> Result<(Decision, Vec<Version>, Images), Error<Failed>> {
    let (mut copy, mut journal) = (vec![0; LENGTH], vec![0; journal]);
    let mut device = Device::open(SETUP, flash, Memory::copy(&mut copy), &mut journal)?;
    let boot = device.boot()?;
    assert!(device.is_booted());
    assert!(device.contents() == &device.flash().bytes[..], "the copy has the flash's bytes");
    let version = |it| device.slot(it, Side::Primary).unwrap().version();
    assert!(boot.versions().is_empty() || boot.versions() == [version(0), version(1)]);
    Ok((boot.decision(), vec![version(0), version(1)], boot.reverted()))
}

#[test]
fn trial_and_revert() {
    let mut flash = requested(Request::Test);
    assert_eq!(
        boot(&mut flash, JOURNAL),
        Ok((Decision::Trial(BOTH), vec![NEW; 2], Images::default()))
    );
    assert_eq!(boot(&mut flash, JOURNAL), Ok((Decision::Plain, vec![OLD; 2], BOTH)));
}

#[test]
fn application_confirms() {
    let mut flash = requested(Request::Test);
    boot(&mut flash, JOURNAL).unwrap();
    let mut journal = [0; JOURNAL];
    let mut device = Device::resume(SETUP, &mut flash, Memory::mapped(), &mut journal).unwrap();
    let state = device.state().unwrap();
    assert_eq!((state.phase, state.set, state.sequence), (Phase::Trial, BOTH, 1));
    assert_eq!(upload(&mut device, Request::Test), Err(Error::Refused(Fault::OnTrial)));
    assert_eq!(device.confirm(0), Ok(()));
    assert_eq!(device.confirm(1), Ok(()));
    assert_eq!(device.confirm(1), Ok(()), "once more");
    assert_eq!(boot(&mut flash, JOURNAL), Ok((Decision::Plain, vec![NEW; 2], Images::default())));
}

/// After a cut at each write of a boot, and at each write of the one that reverts, the next boot
/// ends it: both images are old, or both are new.
#[test]
fn cuts_at_each_write() {
    for request in [Request::Test, Request::Permanent] {
        let start = requested(request).bytes;
        let mut writes = 1;
        for fails_at in 1.. {
            let mut flash = Flash { bytes: start.clone(), writes: 0, fails_at };
            let first = boot(&mut flash, JOURNAL);
            if first.is_ok() {
                break;
            }
            assert_eq!(first, Err(Error::Flash(Failed)));
            let (decision, versions, _) = boot(&mut flash, JOURNAL).unwrap();
            let is_new = decision == Decision::Trial(BOTH) || decision == Decision::Permanent(BOTH);
            let is_last = versions == [OLD; 2] && request == Request::Test || versions == [NEW; 2];
            assert!(is_new && versions == [NEW; 2] || decision == Decision::Plain && is_last);
            writes = fails_at;
        }
        assert!(writes > 40, "{} writes", writes);
    }
}

#[test]
fn failures_close_the_device() {
    let mut flash = requested(Request::Test);
    flash.fails_at = 5;
    let (mut copy, mut journal) = (vec![0; LENGTH], [0; JOURNAL]);
    let mut device =
        Device::open(SETUP, &mut flash, Memory::copy(&mut copy), &mut journal).unwrap();
    assert_eq!(device.boot().unwrap_err(), Error::Flash(Failed));
    assert!(!device.is_booted());
    assert_eq!(device.boot().unwrap_err(), Error::Closed);
    assert_eq!(device.confirm(0), Err(Error::Closed));
    assert_eq!(device.reopen(), Ok(()));
    assert_eq!(device.contents(), &device.flash().bytes[..]);
    assert_eq!(device.boot().unwrap().decision(), Decision::Trial(BOTH));
}

#[test]
fn failures_end_what_was_booted() {
    let mut flash = requested(Request::Test);
    boot(&mut flash, JOURNAL).unwrap();
    flash.fails_at = flash.writes + 1;
    let mut journal = [0; JOURNAL];
    let mut device = Device::resume(SETUP, &mut flash, Memory::mapped(), &mut journal).unwrap();
    assert!(device.is_booted());
    assert_eq!(device.confirm(0), Err(Error::Flash(Failed)));
    assert!(!device.is_booted());
    assert_eq!(device.reopen(), Ok(()));
    assert!(device.is_booted(), "the loader's boot answered");
}

/// The writes are the same with a copy and with mapped memory. A longer journal takes fewer
/// attempts, and the flash ends with the same bytes.
#[test]
fn copy_and_mapped() {
    let mut copied = requested(Request::Permanent);
    boot(&mut copied, JOURNAL).unwrap();
    for length in [JOURNAL, JOURNAL + 1, JOURNAL + 600, 1 << 16] {
        let (mut flash, mut journal) = (requested(Request::Permanent), vec![0; length]);
        let mut device = Device::open(SETUP, &mut flash, Memory::mapped(), &mut journal).unwrap();
        let boot = device.boot().unwrap();
        assert_eq!(boot.decision(), Decision::Permanent(BOTH));
        assert_eq!(boot.writes(), device.writes());
        assert_eq!(boot.writes(), device.flash().writes as u64);
        assert!(flash.bytes == copied.bytes, "a journal of {} bytes", length);
        assert!(length > JOURNAL + 1 || flash.writes == copied.writes);
    }
}

/// Does something with a device that is booted for the first time.
fn with_booted(does: impl FnOnce(&mut Device<&mut Flash>)) {
    let mut flash = factory();
    let (mut copy, mut journal) = (vec![0; LENGTH], vec![0; JOURNAL + 1024]);
    let memory = Memory::copy(&mut copy);
    let mut device = Device::open(SETUP, &mut flash, memory, &mut journal).unwrap();
    assert_eq!(device.state(), Err(Error::NotMade(Status::NoLog)));
    assert_eq!(device.boot().unwrap_err(), Error::Refused(Fault::NotProvisioned));
    device.provision().unwrap();
    assert_eq!(device.finish(0), Err(Error::Refused(Fault::NotBooted)));
    device.boot().unwrap();
    does(&mut device);
}

#[test]
fn texts_and_refusals() {
    let (mut table, mut report) = ([0; MAX_TABLE_LENGTH], [0; MAX_REPORT_LENGTH]);
    with_booted(|device| {
        // Image 0 needs an image 1 that isn't uploaded.
        let file = image(NEW, 1);
        device.accept(7, &[Component::of(0, &file, Request::Test)]).unwrap();
        device.piece(0, &file).unwrap();
        device.finish(0).unwrap();
        let (boot, texts) = device.boot_with_texts(&mut table, &mut report).unwrap();
        assert_eq!(boot.refusals().len(), 1);
        let refusal = boot.refusals()[0];
        assert_eq!((refusal.image(), refusal.reason()), (0, Some(Reason::Needs)));
        assert_eq!(refusal.dependencies(), [Dependency { image: 1, minimum: NEW }]);
        assert_eq!(check(texts.table, texts.report), Ok(()));
        let mut again = [0; MAX_REPORT_LENGTH];
        assert_eq!(choose(texts.table, &mut again), Ok(texts.report));
        assert!(texts.report.starts_with("run 0 1.0.0+0"), "{}", texts.report);
        assert_eq!(device.withdraw(0), Ok(()));
        let nothing = Fault::Upload(UploadFault::NothingRequested);
        assert_eq!(device.withdraw(0), Err(Error::Refused(nothing)));
        assert_eq!(device.confirm(0), Err(Error::Refused(Fault::NotOnTrial)));
        // Buffers that are too small get no text.
        let (_, texts) = device.boot_with_texts(&mut table[..1], &mut report[..1]).unwrap();
        assert_eq!((texts.table, texts.report), ("", ""));
    });
}

fn refused(fault: UploadFault) -> Result<(), Error<Failed>> {
    Err(Error::Refused(Fault::Upload(fault)))
}

#[test]
fn refused_manifests() {
    let manifest = |fault| Err(Error::Refused(Fault::Manifest(fault)));
    with_booted(|device| {
        let file = image(NEW, 1);
        let component = Component::of(0, &file, Request::Test);
        assert_eq!(device.accept(1, &[]), manifest(ManifestFault::BadValue));
        let twice = device.accept(1, &[component; 2]);
        assert_eq!(twice, manifest(ManifestFault::RepeatedComponent));
        let nine = device.accept(1, &[component; 9]);
        assert_eq!(nine, Err(Error::NotMade(Status::TooMany)));
        let absent = Component { image: 2, ..component };
        assert_eq!(device.accept(1, &[absent]), manifest(ManifestFault::NoComponent));
        let other = Component { precursor: Some([0; 32]), ..component };
        assert_eq!(device.accept(1, &[other]), refused(UploadFault::WrongPrecursor));
        let running = *device.slot(0, Side::Primary).unwrap().digest();
        let own = Component { precursor: Some(running), ..component };
        assert_eq!(device.accept(2, &[own]), Ok(()));
        assert_eq!(device.accept(1, &[own]), refused(UploadFault::OldSequence));
    });
}

#[test]
fn refused_uploads() {
    with_booted(|device| {
        let mut file = image(NEW, 1);
        device.accept(2, &[Component::of(0, &file, Request::Test)]).unwrap();
        assert_eq!(device.finish(0), refused(UploadFault::SizeWrong));
        assert_eq!(device.piece(0, &file), refused(UploadFault::NoSession));
        file[40] ^= 1;
        assert_eq!(device.accept(2, &[Component::of(0, &file, Request::Test)]), Ok(()));
        assert_eq!(device.piece(0, &file), Ok(()));
        let damaged = UploadFault::NotAnImage(ImageFault::BadDigest);
        assert_eq!(device.finish(0), refused(damaged));
        assert_eq!(describe(&file), Err(ImageFault::BadDigest));
        let slot = device.slot(2, Side::Primary);
        assert_eq!(slot, Err(SlotError::NotMade(Status::NoImage)));
    });
}

/// Boots a flash of `length` bytes by a copy of `copy` bytes, and returns why that fails.
fn fails(length: usize, copy: usize, journal: usize) -> Error<MemoryFault> {
    let (mut memory, mut journal) = (vec![0xff; length], vec![0; journal]);
    let (mut copy, part) = (vec![0; copy], MemoryFlash::<SECTOR>(&mut memory));
    match Device::open(SETUP, part, Memory::copy(&mut copy), &mut journal) {
        Ok(mut device) => device.boot().unwrap_err(),
        Err(error) => error,
    }
}

#[test]
fn sizes() {
    assert_eq!(fails(LENGTH, LENGTH, JOURNAL), Error::Refused(Fault::NotProvisioned));
    assert_eq!(fails(LENGTH, LENGTH + SECTOR, JOURNAL), Error::Sizes);
    assert_eq!(fails(LENGTH, LENGTH - SECTOR, JOURNAL), Error::NotMade(Status::NoFlash));
    assert_eq!(fails(LENGTH, LENGTH - 1, JOURNAL), Error::NotMade(Status::NoFlash));
    assert_eq!(fails(LENGTH, LENGTH, JOURNAL - 1), Error::JournalTooSmall);
    let (mut memory, mut journal) = (vec![0xff; LENGTH], [0; JOURNAL]);
    let larger = MemoryFlash::<1024>(&mut memory);
    let opened = Device::open(SETUP, larger, Memory::mapped(), &mut journal);
    assert!(matches!(opened, Err(Error::Sizes)));
}

#[test]
fn setups() {
    for (setup, status) in [
        (Setup::new(500, &[2], 1), Status::NoMap),
        (Setup::new(512, &[], 1), Status::NoMap),
        (Setup::new(512, &[1; 9], 1), Status::NoMap),
        (Setup::new(512, &[2], 0), Status::NoTrial),
    ] {
        let (mut memory, mut journal) = (vec![0xff; LENGTH], vec![0; 4096]);
        let part = MemoryFlash::<4>(&mut memory);
        let mut device = Device::open(setup, part, Memory::mapped(), &mut journal).unwrap();
        assert_eq!(device.boot().unwrap_err(), Error::NotMade(status));
    }
}
