//! A device of one image whose flash is in memory: it is provisioned, boots, and prints the version that runs. The argument is
//! the file of the image.
use bootswap::{Decision, Device, Memory, MemoryFlash, Setup};

const SETUP: Setup = Setup::new(512, &[2], 1);

fn main() {
    let file = std::fs::read(std::env::args().nth(1).unwrap()).unwrap();
    let (mut flash, mut journal) = ([0xff; SETUP.map_length()], [0; SETUP.boot_journal_length()]);
    flash[..file.len()].copy_from_slice(&file);
    let part = MemoryFlash::<512>(&mut flash);
    let mut device = Device::open(SETUP, part, Memory::mapped(), &mut journal).unwrap();
    device.provision().unwrap();
    let boot = device.boot().unwrap();
    assert_eq!(boot.decision(), Decision::Plain);
    println!("runs {}", boot.versions()[0]);
}
