//! Times the proved crates, as a static library, against a plain implementation, and prints the
//! ratios.

mod inputs;
mod plain_choice;
mod plain_digest;
mod plain_image;
mod proved;
mod timing;

use inputs::Random;
use proved::Slot;
use std::hint::black_box;
use std::path::{Path, PathBuf};
use std::process::{Command, ExitCode, Stdio};
use timing::Rounds;

/// The largest ratio of the time to describe an image of 1 MiB to the time of its digest alone.
const MOST_OVER_DIGEST: f64 = 1.05;

/// The largest ratio of the time to describe a slot with that image to the time of the digest.
const MOST_OVER_DIGEST_IN_SLOT: f64 = 1.1;

const MEGABYTE: usize = 1 << 20;

/// The number of random images, and of random tables, for which both sides are compared.
const RANDOM_INPUTS: usize = 100_000;

/// The number of MiB that the machine's `sha256sum` hashes.
const SHA256SUM_MEGABYTES: u32 = 200;

/// The number of runs of `sha256sum`.
const SHA256SUM_ROUNDS: usize = 5;

fn main() -> ExitCode {
    let Some(folder) = std::env::args_os().nth(1).map(PathBuf::from) else {
        eprintln!("usage: bench FOLDER, where a large file may be written for a while");
        return ExitCode::from(2);
    };
    expect_same_answers();
    expect_same_choices();
    println!("same answers to {RANDOM_INPUTS} images and {RANDOM_INPUTS} tables");
    let over_digest = time_image("1 MiB", MEGABYTE);
    time_image("64 KiB", 1 << 16);
    time_image("no body", 0);
    let over_digest_in_slot = time_slot();
    time_choice();
    time_sha256sum(&folder);
    let limits = [
        is_below("describe", over_digest, MOST_OVER_DIGEST),
        is_below(
            "describe_slot",
            over_digest_in_slot,
            MOST_OVER_DIGEST_IN_SLOT,
        ),
    ];
    if limits.iter().all(|kept| *kept) {
        ExitCode::SUCCESS
    } else {
        ExitCode::FAILURE
    }
}

fn is_below(name: &str, over_digest: f64, limit: f64) -> bool {
    let kept = over_digest < limit;
    if !kept {
        eprintln!("{name} of a megabyte takes {over_digest:.3} of its digest, not below {limit}");
    }
    kept
}

/// Prints and returns the ratio of the time to describe a slot with an image of 1 MiB to the time
/// of its digest.
fn time_slot() -> f64 {
    let image = inputs::image(MEGABYTE);
    let (slot, hashed) = (Slot::with(&image.bytes), &image.bytes[..image.hashed]);
    let rounds = Rounds::of([&|| black_box(&slot).describe(), &|| {
        proved::digest(black_box(hashed))
    }]);
    let ratio = rounds.ratio(0, 1);
    print_ratio("1 MiB: describe_slot / digest", ratio);
    ratio
}

/// Checks that both sides return the same for intact and for damaged images.
fn expect_same_answers() {
    for body_size in [0, 1, 1 << 16, MEGABYTE] {
        let image = inputs::image(body_size);
        let length = image.bytes.len() as u64;
        assert_eq!(
            Slot::with(&image.bytes).describe(),
            length,
            "body of {body_size} bytes"
        );
        assert_eq!(
            proved::describe(&image.bytes),
            length,
            "body of {body_size} bytes"
        );
        assert_eq!(
            plain_image::answer(&image.bytes),
            length,
            "body of {body_size} bytes"
        );
    }
    let mut random = Random::new();
    // The count of each result: 0 for an intact image, else the number of the check that fails.
    let mut seen = [0; 16];
    for _ in 0..RANDOM_INPUTS {
        let bytes = inputs::damaged_image(&mut random);
        let answer = proved::describe(&bytes);
        assert_eq!(answer, plain_image::answer(&bytes), "{bytes:?}");
        seen[(answer >> 63) as usize * (answer & 15) as usize] += 1;
        assert_eq!(
            proved::digest(&bytes),
            plain_digest_number(&bytes),
            "{bytes:?}"
        );
    }
    assert!(
        seen.iter().all(|count| *count > 0),
        "some answer never came: {seen:?}"
    );
}

/// Checks that both sides choose the same for the full table and for random tables.
fn expect_same_choices() {
    let table = inputs::full_table();
    let all_refused = 8 * 256;
    for table in [&table, &inputs::full_table_with_groups()] {
        assert_eq!(proved::choose(table.as_bytes()), all_refused);
        assert_eq!(plain_choice::answer(table.as_bytes()), all_refused);
    }
    let report = inputs::full_report();
    assert!(proved::check(table.as_bytes(), report.as_bytes()));
    assert!(!proved::check(table.as_bytes(), table.as_bytes()));
    let mut random = Random::new();
    // The counts of choices that took no request, that took some, of malformed tables, and of
    // invalid running sets.
    let mut seen = [0; 4];
    for _ in 0..RANDOM_INPUTS {
        let table = inputs::random_table(&mut random);
        let answer = proved::choose(table.as_bytes());
        assert_eq!(answer, plain_choice::answer(table.as_bytes()), "{table}");
        let kind = match answer {
            chosen if chosen < 1 << 12 => usize::from(chosen & 255 != 0),
            bad => 2 + (bad & 1) as usize,
        };
        seen[kind] += 1;
    }
    assert!(
        seen.iter().all(|count| *count > 0),
        "some answer never came: {seen:?}"
    );
}

fn plain_digest_number(bytes: &[u8]) -> u64 {
    let digest = plain_digest::sha256(bytes);
    u64::from_be_bytes(digest[..8].try_into().expect("eight bytes"))
}

/// Prints the ratios for one image, and returns that of `describe` to the proved digest alone.
fn time_image(name: &str, body_size: usize) -> f64 {
    let image = inputs::image(body_size);
    let (bytes, hashed) = (&image.bytes[..], &image.bytes[..image.hashed]);
    let rounds = Rounds::of([
        &|| proved::describe(black_box(bytes)),
        &|| proved::digest(black_box(hashed)),
        &|| plain_image::answer(black_box(bytes)),
        &|| plain_digest_number(black_box(hashed)),
    ]);
    let over_digest = rounds.ratio(0, 1);
    print_ratio(
        &format!("{name}: describe / plain describe"),
        rounds.ratio(0, 2),
    );
    print_ratio(
        &format!("{name}: describe / plain digest"),
        rounds.ratio(0, 3),
    );
    print_ratio(&format!("{name}: describe / digest"), over_digest);
    print_ratio(
        &format!("{name}: digest / plain digest"),
        rounds.ratio(1, 3),
    );
    over_digest
}

fn time_choice() {
    let (table, report) = (inputs::full_table(), inputs::full_report());
    let (table, report) = (table.as_bytes(), report.as_bytes());
    let rounds = Rounds::of([
        &|| reported(black_box(table)),
        &|| plain_choice::answer(black_box(table)),
        &|| u64::from(proved::check(black_box(table), black_box(report))),
    ]);
    print_ratio("full table: choose / plain choose", rounds.ratio(0, 1));
    print_ratio("full table: check / choose", rounds.ratio(2, 0));
    let table = inputs::full_table_with_groups();
    let table = table.as_bytes();
    let rounds = Rounds::of([&|| reported(black_box(table)), &|| {
        plain_choice::answer(black_box(table))
    }]);
    print_ratio(
        "full table with groups: choose / plain choose",
        rounds.ratio(0, 1),
    );
}

/// The length of the report on a table, which is written to a buffer.
fn reported(table: &[u8]) -> u64 {
    let mut report = [0; proved::REPORT];
    let length = proved::report(table, &mut report);
    black_box(&report);
    length.map_or_else(|fault| fault, |length| length as u64)
}

/// Prints the ratio of the proved digest to the machine's `sha256sum`, if there is this command.
fn time_sha256sum(folder: &Path) {
    let megabyte = inputs::image(MEGABYTE).bytes;
    let file = folder.join("megabytes");
    let written = std::fs::write(
        &file,
        megabyte[..MEGABYTE].repeat(SHA256SUM_MEGABYTES as usize),
    );
    if let Err(error) = written {
        eprintln!("sha256sum isn't timed: {}: {error}", file.display());
        return;
    }
    let sum = || u64::from(runs_sha256sum(&file));
    let digest = || proved::digest(black_box(&megabyte[..MEGABYTE]));
    if sum() == 0 {
        eprintln!("sha256sum isn't timed: it can't be run");
    } else {
        let ratios = (0..SHA256SUM_ROUNDS)
            .map(|_| timing::seconds(&digest, SHA256SUM_MEGABYTES) / timing::seconds(&sum, 1));
        let ratio = timing::median(ratios.collect());
        print_ratio("digest of 200 MiB / sha256sum", ratio);
    }
    if let Err(error) = std::fs::remove_file(&file) {
        eprintln!("{} is left: {error}", file.display());
    }
}

fn runs_sha256sum(file: &Path) -> bool {
    let status = Command::new("sha256sum")
        .arg(file)
        .stdout(Stdio::null())
        .status();
    status.is_ok_and(|status| status.success())
}

fn print_ratio(name: &str, ratio: f64) {
    println!("{name:<36} {ratio:6.3}");
}
