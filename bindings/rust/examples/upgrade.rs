//! A loader and an application of two versions, as `examples/cortex_m` of the repository has them in
//! C: version 1 takes an upload of version 2. `main` plays the part and its power-ups.

use bootswap::{
    make_image, Component, Device, Error, Fault, ImageParts, MappedFlash, Memory, MemoryFlash,
    Phase, Request, Setup, Version,
};

/// One image, whose slots have 61 sectors of 4 KiB. A trial has one boot.
const SETUP: Setup = Setup::new(4096, &[61], 1);

/// The loader: returns where the vector table is, in bytes from the first one of the flash.
pub fn boot<F: MappedFlash>(flash: F) -> Result<usize, Error<F::Error>> {
    let mut journal = [0; SETUP.boot_journal_length()];
    let mut device = Device::open(SETUP, flash, Memory::mapped(), &mut journal)?;
    let mut booted = device.boot();
    if let Err(Error::Refused(Fault::NotProvisioned)) = booted {
        // The factory wrote the image.
        device.provision()?;
        booted = device.boot();
    }
    booted?;
    // ih_hdr_size: the body follows the header.
    let image = device.contents();
    Ok(usize::from(u16::from_le_bytes([image[8], image[9]])))
}

/// The application: on trial it confirms itself, else it takes an upload. Returns whether to reset.
pub fn work<F: MappedFlash>(flash: F, file: Option<&[u8]>) -> Result<bool, Error<F::Error>> {
    let mut journal = [0; SETUP.boot_journal_length()];
    let mut device = Device::resume(SETUP, flash, Memory::mapped(), &mut journal)?;
    if device.state()?.phase == Phase::Trial {
        device.confirm(0)?;
    } else if let Some(file) = file {
        device.accept(1, &[Component::of(0, file, Request::Test)])?;
        for piece in file.chunks(1000) {
            device.piece(0, piece)?;
        }
        device.finish(0)?;
        return Ok(true);
    }
    Ok(false)
}

/// Makes an image of a major version.
fn image(major: u8) -> Vec<u8> {
    let version = Version::new(major, 0, 0);
    let parts = ImageParts { version, header_size: 512, ..ImageParts::default() };
    let mut bytes = vec![0; 10_000];
    let length = make_image(&parts, &[major; 5000], &mut bytes).unwrap();
    bytes.truncate(length);
    bytes
}

fn main() {
    let (mut flash, old, new) = (vec![0xff; SETUP.map_length()], image(1), image(2));
    flash[..old.len()].copy_from_slice(&old);
    let mut start = |file: Option<&[u8]>| {
        let table = boot(MemoryFlash::<4096>(&mut flash)).unwrap();
        let resets = work(MemoryFlash::<4096>(&mut flash), file).unwrap();
        println!("vectors {}, version {}, resets {}", table, flash[20], resets);
    };
    start(Some(&new));
    start(None);
    start(None);
}
