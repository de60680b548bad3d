//! Inputs for both sides: images and tables, also damaged ones.

use crate::plain_digest::sha256;
use crate::plain_image::{
    COUNTER_KIND, DEPENDENCY_KIND, DIGEST_KIND, GROUP_KIND, MAGIC, PROTECTED_MAGIC,
    UNPROTECTED_MAGIC,
};
use std::fmt::Write;

/// A generator of numbers (xorshift), the same in each run.
pub struct Random(u64);

impl Random {
    pub fn new() -> Random {
        Random(0x9e37_79b9_7f4a_7c15)
    }

    /// A number below a bound.
    pub fn below(&mut self, bound: u64) -> u64 {
        self.0 ^= self.0 << 13;
        self.0 ^= self.0 >> 7;
        self.0 ^= self.0 << 17;
        (self.0 >> 11) % bound
    }
}

/// An intact image.
pub struct Image {
    pub bytes: Vec<u8>,
    /// The number of hashed bytes: header, body and protected area.
    pub hashed: usize,
}

/// An intact image with a body of this number of bytes, a security counter and two dependencies.
pub fn image(body_size: usize) -> Image {
    image_of(body_size, 1, 2, 0, 1)
}

/// An image with these numbers of body bytes and of entries of each type that is read.
fn image_of(
    body_size: usize,
    counters: usize,
    dependencies: usize,
    groups: usize,
    digests: usize,
) -> Image {
    let mut random = Random::new();
    let counter: (u16, &[u8]) = (COUNTER_KIND, &7_u32.to_le_bytes());
    let asked = [1, 0, 0, 0, 1, 2, 3, 0, 4, 0, 0, 0];
    let dependency: (u16, &[u8]) = (DEPENDENCY_KIND, &asked);
    let alternatives = [asked; 4].concat();
    let group: (u16, &[u8]) = (GROUP_KIND, &alternatives);
    let entries = [
        vec![counter; counters],
        vec![dependency; dependencies],
        vec![group; groups],
    ]
    .concat();
    let protected = area(PROTECTED_MAGIC, &entries);
    let mut bytes = header(body_size as u32, protected.len() as u16);
    bytes.extend((0..body_size).map(|_| random.below(256) as u8));
    bytes.extend_from_slice(&protected);
    let hashed = bytes.len();
    let digest = sha256(&bytes);
    let digests = vec![(DIGEST_KIND, &digest[..]); digests];
    bytes.extend_from_slice(&area(UNPROTECTED_MAGIC, &digests));
    Image { bytes, hashed }
}

fn header(body_size: u32, protected_size: u16) -> Vec<u8> {
    let mut header = Vec::new();
    header.extend_from_slice(&MAGIC.to_le_bytes());
    header.extend_from_slice(&0x0001_0000_u32.to_le_bytes()); // load address
    header.extend_from_slice(&32_u16.to_le_bytes());
    header.extend_from_slice(&protected_size.to_le_bytes());
    header.extend_from_slice(&body_size.to_le_bytes());
    header.extend_from_slice(&0x10_u32.to_le_bytes()); // flags
    header.extend_from_slice(&[1, 2, 3, 0, 4, 0, 0, 0]); // version
    header.extend_from_slice(&[0; 4]); // pad
    header
}

fn area(magic: u16, entries: &[(u16, &[u8])]) -> Vec<u8> {
    let size: usize = entries.iter().map(|entry| 4 + entry.1.len()).sum();
    let mut area = Vec::new();
    area.extend_from_slice(&magic.to_le_bytes());
    area.extend_from_slice(&(4 + size as u16).to_le_bytes());
    for (kind, value) in entries {
        area.extend_from_slice(&kind.to_le_bytes());
        area.extend_from_slice(&(value.len() as u16).to_le_bytes());
        area.extend_from_slice(value);
    }
    area
}

/// A damaged image without a body. It may have too many entries, up to three changed bytes with or
/// without a new digest, a missing end, or a byte after its end.
pub fn damaged_image(random: &mut Random) -> Vec<u8> {
    let mut rarely = |usual: usize, other: u64| match random.below(8) {
        0 => random.below(other) as usize,
        _ => usual,
    };
    let Image { mut bytes, hashed } =
        image_of(0, rarely(1, 4), rarely(2, 20), rarely(1, 7), rarely(1, 4));
    for _ in 0..random.below(4) {
        let place = random.below(bytes.len() as u64) as usize;
        bytes[place] = random.below(256) as u8;
    }
    if random.below(2) == 0 {
        let digest = sha256(&bytes[..hashed]);
        if let Some(value) = bytes.get_mut(hashed + 8..hashed + 40) {
            value.copy_from_slice(&digest);
        }
    }
    match random.below(6) {
        0 => bytes.truncate(random.below(bytes.len() as u64) as usize),
        1 => bytes.push(0),
        _ => {}
    }
    bytes
}

/// A full table: eight images, and 16 dependencies of each running and each requested image.
///
/// The last request needs a version that no image reaches. The last dependency of each other
/// request needs the next request. So all eight are refused, one after the other.
pub fn full_table() -> String {
    let mut table = String::new();
    for image in 0..8 {
        line(&mut table, format_args!("image {image} 10.20.300+4000 5 5"));
        for needed in 0..16 {
            line(
                &mut table,
                format_args!("needs {} 10.20.300+3999", needed % 8),
            );
        }
        line(&mut table, format_args!("request 11.21.301+4001 6"));
        for needed in 0..15 {
            line(
                &mut table,
                format_args!("needs {} 10.20.300+4000", needed % 8),
            );
        }
        match image {
            7 => line(&mut table, format_args!("needs 0 12.0.0+0")),
            _ => line(
                &mut table,
                format_args!("needs {} 11.21.301+4001", image + 1),
            ),
        }
    }
    table
}

/// The full table, with four groups of four alternatives for each running and each requested image.
///
/// The first three alternatives of each group can't be met. Only the last group of each request
/// needs the next request. So all eight are refused, one after the other.
pub fn full_table_with_groups() -> String {
    let mut table = String::new();
    for image in 0..8 {
        line(&mut table, format_args!("image {image} 10.20.300+4000 5 5"));
        sixteen_needs(&mut table);
        for _ in 0..4 {
            group(&mut table, image, "10.20.300+4000");
        }
        line(&mut table, format_args!("request 11.21.301+4001 6"));
        sixteen_needs(&mut table);
        for _ in 0..3 {
            group(&mut table, image, "10.20.300+4000");
        }
        match image {
            7 => group(&mut table, 0, "12.0.0+0"),
            _ => group(&mut table, image + 1, "11.21.301+4001"),
        }
    }
    table
}

/// A line for each dependency that an image may have. The running images meet all.
fn sixteen_needs(table: &mut String) {
    for needed in 0..16 {
        line(table, format_args!("needs {} 10.20.300+4000", needed % 8));
    }
}

/// A group of which only the last alternative can be met, by this image with this version.
fn group(table: &mut String, image: u64, minimum: &str) {
    line(
        table,
        format_args!("needs-one 9 1.0.0+0 0 13.0.0+0 1 13.0.0+0 {image} {minimum}"),
    );
}

/// The report that is right for the full table.
pub fn full_report() -> String {
    let mut report = String::new();
    for image in 0..8 {
        line(&mut report, format_args!("run {image} 10.20.300+4000"));
    }
    line(&mut report, format_args!("refuse 7 needs 0 12.0.0+0"));
    for image in (0..7).rev() {
        line(
            &mut report,
            format_args!("refuse {image} needs {} 11.21.301+4001", image + 1),
        );
    }
    report
}

/// A small table of random images. It may have a line that makes it malformed.
pub fn random_table(random: &mut Random) -> String {
    let images = 1 + random.below(8);
    let mut table = String::new();
    for image in 0..images {
        let running = random.below(2) + 1;
        line(
            &mut table,
            format_args!("image {image} {running}.0 1 {}", random.below(2)),
        );
        needs(&mut table, random, images, 1);
        match random.below(5) {
            0 => {}
            1 => line(&mut table, format_args!("damaged")),
            _ => {
                line(
                    &mut table,
                    format_args!("request {}.0.0+0 {}", random.below(3) + 1, random.below(3)),
                );
                needs(&mut table, random, images, 3);
            }
        }
    }
    if random.below(20) == 0 {
        let wrong = [
            "",
            "needs 1",
            "request 1.0 01",
            "damaged ",
            "image 1 1+2 0 0",
            "needs 256 1",
            "needs-one",
            "needs-one 0 1 0 1 0 1 0 1 0 1",
        ];
        line(
            &mut table,
            format_args!("{}", wrong[random.below(8) as usize]),
        );
    }
    table
}

/// Up to two lines of dependencies, on images with versions up to this one, and rarely on others.
fn needs(table: &mut String, random: &mut Random, images: u64, highest: u64) {
    for _ in 0..random.below(3) {
        let image = match random.below(32) {
            0 => images,
            _ => random.below(images),
        };
        let minimum = match random.below(32) {
            0 => highest + 1,
            _ => 1 + random.below(highest),
        };
        line(table, format_args!("needs {image} {minimum}"));
    }
    for _ in 0..random.below(16) / 12 {
        let mut words = String::from("needs-one");
        for _ in 0..1 + random.below(4) {
            let minimum = 1 + random.below(highest + 1);
            write!(words, " {} {minimum}", random.below(images + 1)).expect("a string takes all");
        }
        line(table, format_args!("{words}"));
    }
}

fn line(text: &mut String, words: std::fmt::Arguments) {
    writeln!(text, "{words}").expect("a string takes all");
}
