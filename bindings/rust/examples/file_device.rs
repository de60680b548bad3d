//! A device of two images whose flash is a file, as `bindings/c/file_device.c`. Each run of this
//! program is a power-up of the device. Kill it at any moment, and run it again.
//!
//! In the folder `bindings/rust` of a clone with its `out/c`:
//!
//! ```sh
//! cargo build --example file_device
//! cp target/debug/examples/file_device ../../examples/images/[nop]*.img ../../out
//! cd ../../out
//! ./file_device flash provision one.img one.img
//! ./file_device flash boot upload needing.img partner.img
//! ./file_device flash boot confirm
//! ```
//!
//! The second run uploads two images that need each other. The boot of the third run takes them for
//! a trial, and they are confirmed. Without `confirm`, the boot of the next run reverts both.

use std::fs::{self, File, OpenOptions};
use std::io;
use std::os::unix::fs::FileExt;
use std::process::exit;

use bootswap::{
    Component, Decision, Device, Error, Images, Memory, NorFlash, Request, Setup, Side,
};
use bootswap::{MAX_REPORT_LENGTH, MAX_TABLE_LENGTH};

/// Both images have two slots of two sectors, each with a sector for its trailer. One sector of
/// scratch and three of the log follow.
const SECTOR: usize = 512;
const SETUP: Setup = Setup::new(SECTOR as u32, &[2, 2], 1);
const FLASH: usize = SETUP.map_length();

const USAGE: &str = "usage: file_device FLASH [provision IMAGE IMAGE] \
    [boot [upload IMAGE IMAGE] [confirm] ..] ..";

/// A flash whose contents are a file. A write is on the disk before its function returns.
struct FileFlash(File);

impl NorFlash for FileFlash {
    type Error = io::Error;
    const READ_SIZE: usize = 1;
    const WRITE_SIZE: usize = 8;
    const ERASE_SIZE: usize = SECTOR;

    fn read(&mut self, offset: u32, bytes: &mut [u8]) -> io::Result<()> {
        self.0.read_exact_at(bytes, offset.into())
    }

    fn capacity(&self) -> usize {
        FLASH
    }

    fn erase(&mut self, from: u32, to: u32) -> io::Result<()> {
        (from..to).step_by(SECTOR).try_for_each(|at| self.write(at, &[0xff; SECTOR]))
    }

    fn write(&mut self, offset: u32, bytes: &[u8]) -> io::Result<()> {
        self.0.write_all_at(bytes, offset.into())?;
        self.0.sync_all()
    }
}

type FileDevice<'a> = Device<'a, FileFlash>;

/// Ends the program with an error.
fn stop(what: &str, why: &dyn std::fmt::Display) -> ! {
    eprintln!("{}: {}", what, why);
    exit(1)
}

/// Returns what a call returned, or ends the program with the numbers that C has.
fn must<T>(what: &str, result: Result<T, Error<io::Error>>) -> T {
    result.unwrap_or_else(|error| {
        let (fault, detail) = match &error {
            Error::Refused(fault) => (fault.number(), fault.detail()),
            _ => (0, 0),
        };
        eprintln!("{}: {} (fault {}, detail {})", what, error.number(), fault, detail);
        exit(1)
    })
}

fn load(name: &str) -> Vec<u8> {
    fs::read(name).unwrap_or_else(|error| stop(name, &error))
}

fn open<'a>(name: &str, copy: &'a mut [u8], journal: &'a mut [u8]) -> FileDevice<'a> {
    let file = OpenOptions::new().read(true).write(true).create(true).truncate(false).open(name);
    let flash = FileFlash(file.unwrap_or_else(|error| stop(name, &error)));
    must("open", Device::open(SETUP, flash, Memory::copy(copy), journal))
}

/// Writes the images to their primary slots, as at the factory.
fn write_images(name: &str, images: &[String]) {
    let mut flash = vec![0xff; FLASH];
    for (image, file) in images.iter().enumerate() {
        let bytes = load(file);
        let at = SETUP.primary_slot_at(image).unwrap_or(0);
        flash[at..at + bytes.len()].copy_from_slice(&bytes);
    }
    fs::write(name, flash).unwrap_or_else(|error| stop(name, &error));
}

fn boot(device: &mut FileDevice) {
    let (mut table, mut report) = ([0; MAX_TABLE_LENGTH], [0; MAX_REPORT_LENGTH]);
    let result = device.boot_with_texts(&mut table, &mut report);
    if !device.reverted().is_empty() {
        println!("reverted {}", device.reverted());
    }
    let (boot, texts) = must("boot", result);
    match boot.decision() {
        Decision::TrialAgain { set, .. } => println!("trial-again {}", set),
        Decision::Plain => print!("plain\n{}", texts.report),
        Decision::Trial(_) => print!("trial\n{}", texts.report),
        Decision::Permanent(_) => print!("permanent\n{}", texts.report),
    }
    // A bootloader jumps to the images instead.
    for image in 0..SETUP.images() as u8 {
        match device.slot(image, Side::Primary) {
            Ok(it) => println!("runs {} {}", image, it.version()),
            Err(error) => stop("slot", &format_args!("{:?}", error)),
        }
    }
}

/// Uploads an image for each slot, for a trial, in pieces of at most one sector.
fn upload(device: &mut FileDevice, names: &[String]) {
    let files: Vec<Vec<u8>> = names.iter().map(|it| load(it)).collect();
    let component =
        |(image, file): (usize, &Vec<u8>)| Component::of(image as u8, file, Request::Test);
    let components: Vec<Component> = files.iter().enumerate().map(component).collect();
    must("accept", device.accept(1, &components));
    for (image, file) in files.iter().enumerate() {
        for piece in file.chunks(SECTOR) {
            must("piece", device.piece(image as u8, piece));
        }
        must("finish", device.finish(image as u8));
    }
}

fn confirm(device: &mut FileDevice) {
    for image in Images::from_bits(3).iter() {
        must("confirm", device.confirm(image));
    }
}

/// Runs the commands on the flash of this name. Returns whether they are such.
fn run(name: &str, mut words: &[String]) -> bool {
    let (mut copy, mut journal) = (vec![0; FLASH], vec![0; SETUP.boot_journal_length()]);
    while let [command, rest @ ..] = words {
        words = rest;
        let takes_images = matches!(command.as_str(), "provision" | "upload");
        if takes_images && words.len() < 2 {
            return false;
        }
        let images = &words[..if takes_images { 2 } else { 0 }];
        words = &words[images.len()..];
        if command == "provision" {
            write_images(name, images);
            must("provision", open(name, &mut copy, &mut journal).provision());
        } else if command == "boot" {
            let mut device = open(name, &mut copy, &mut journal);
            boot(&mut device);
            words = run_booted(&mut device, words);
        } else {
            return false;
        }
    }
    true
}

/// Runs the commands of a booted device at the front of these, and returns those after them.
fn run_booted<'w>(device: &mut FileDevice, mut words: &'w [String]) -> &'w [String] {
    loop {
        words = match words {
            [command, one, other, rest @ ..] if command == "upload" => {
                upload(device, &[one.clone(), other.clone()]);
                rest
            }
            [command, rest @ ..] if command == "confirm" => {
                confirm(device);
                rest
            }
            _ => return words,
        };
    }
}

fn main() {
    let words: Vec<String> = std::env::args().skip(1).collect();
    let is_run =
        matches!(&words[..], [name, commands @ ..] if !commands.is_empty() && run(name, commands));
    if !is_run {
        eprintln!("{}", USAGE);
        exit(2);
    }
}
