//! The check of a complete image, in plain Rust, by the format alone.

use crate::plain_digest::sha256;

pub const MAGIC: u32 = 0x96f3_b83d;
pub const PROTECTED_MAGIC: u16 = 0x6908;
pub const UNPROTECTED_MAGIC: u16 = 0x6907;
pub const DIGEST_KIND: u16 = 0x10;
pub const DEPENDENCY_KIND: u16 = 0x40;
pub const COUNTER_KIND: u16 = 0x50;
pub const GROUP_KIND: u16 = 0xa0;
const ACCEPTED_FLAGS: u32 = 0x111;

/// What the result adds to the number of a check that failed.
const REFUSED: u64 = 1 << 63;

/// The first check that fails, by its number.
#[derive(Clone, Copy)]
pub enum Fault {
    Short = 1,
    BadMagic,
    BadHeaderSize,
    UnsupportedFlags,
    Truncated,
    BadTlvMagic,
    BadTlvSize,
    NoDigest,
    TwoDigests,
    BadDigest,
    BadDependency,
    TooManyDependencies,
    TrailingBytes,
    BadCounter,
    TooManyGroups,
}

/// The number of an image, and the bytes of a version.
type Dependency = (u8, [u8; 8]);

/// The description of an intact image.
#[allow(dead_code, reason = "it holds what the proved description holds")]
pub struct Description {
    version: [u8; 8],
    counter: u32,
    flags: u32,
    dependencies: Vec<Dependency>,
    groups: Vec<Vec<Dependency>>,
    digest: [u8; 32],
    length: u64,
}

/// The result for bytes, as a number of the proved library.
pub fn answer(bytes: &[u8]) -> u64 {
    match std::hint::black_box(describe(bytes)) {
        Ok(description) => description.length,
        Err(fault) => REFUSED + fault as u64,
    }
}

/// The description of the image that these bytes are.
pub fn describe(bytes: &[u8]) -> Result<Description, Fault> {
    if bytes.len() < 32 {
        return Err(Fault::Short);
    }
    if read_u32(bytes, 0) != MAGIC {
        return Err(Fault::BadMagic);
    }
    let header_size = usize::from(read_u16(bytes, 8));
    if header_size < 32 {
        return Err(Fault::BadHeaderSize);
    }
    let flags = read_u32(bytes, 16);
    if flags & !ACCEPTED_FLAGS != 0 {
        return Err(Fault::UnsupportedFlags);
    }
    let protected_size = read_u16(bytes, 10);
    let protected_at = header_size + read_u32(bytes, 12) as usize;
    let protected = match protected_size {
        0 => Vec::new(),
        size => area(bytes, protected_at, PROTECTED_MAGIC, Some(size))?,
    };
    let hashed_end = protected_at + usize::from(protected_size);
    let unprotected = area(bytes, hashed_end, UNPROTECTED_MAGIC, None)?;
    let digest = digest(&unprotected, &bytes[..hashed_end])?;
    let (dependencies, groups) = needs(&protected)?;
    let counter = counter(&protected)?;
    let length = hashed_end + usize::from(read_u16(bytes, hashed_end + 2));
    if length < bytes.len() {
        return Err(Fault::TrailingBytes);
    }
    Ok(Description {
        version: bytes[20..28].try_into().expect("eight bytes"),
        counter,
        flags,
        dependencies,
        groups,
        digest,
        length: length as u64,
    })
}

/// Returns the types and values of the entries of an area.
fn area(
    bytes: &[u8],
    at: usize,
    magic: u16,
    expected: Option<u16>,
) -> Result<Vec<(u16, &[u8])>, Fault> {
    if bytes.len() < at + 4 {
        return Err(Fault::Truncated);
    }
    if read_u16(bytes, at) != magic {
        return Err(Fault::BadTlvMagic);
    }
    let total = read_u16(bytes, at + 2);
    if total < 4 || expected.is_some_and(|expected| expected != total) {
        return Err(Fault::BadTlvSize);
    }
    let rest = bytes
        .get(at + 4..at + usize::from(total))
        .ok_or(Fault::Truncated)?;
    entries(rest).ok_or(Fault::BadTlvSize)
}

fn entries(mut rest: &[u8]) -> Option<Vec<(u16, &[u8])>> {
    let mut entries = Vec::new();
    while !rest.is_empty() {
        let (head, after) = rest.split_at_checked(4)?;
        let (value, after) = after.split_at_checked(usize::from(read_u16(head, 2)))?;
        entries.push((read_u16(head, 0), value));
        rest = after;
    }
    Some(entries)
}

fn values<'a>(entries: &'a [(u16, &[u8])], kind: u16) -> impl Iterator<Item = &'a [u8]> {
    let of_kind = entries.iter().filter(move |entry| entry.0 == kind);
    of_kind.map(|entry| entry.1)
}

fn digest(entries: &[(u16, &[u8])], hashed: &[u8]) -> Result<[u8; 32], Fault> {
    let mut digests = values(entries, DIGEST_KIND);
    let entry = digests.next().ok_or(Fault::NoDigest)?;
    if digests.next().is_some() {
        return Err(Fault::TwoDigests);
    }
    let digest = sha256(hashed);
    if entry == digest {
        Ok(digest)
    } else {
        Err(Fault::BadDigest)
    }
}

/// The dependencies and the groups.
fn needs(entries: &[(u16, &[u8])]) -> Result<(Vec<Dependency>, Vec<Vec<Dependency>>), Fault> {
    let dependencies = values(entries, DEPENDENCY_KIND).map(dependency).collect();
    let groups = values(entries, GROUP_KIND).map(group).collect();
    let (dependencies, groups): (Option<Vec<_>>, Option<Vec<_>>) = (dependencies, groups);
    let dependencies = dependencies.ok_or(Fault::BadDependency)?;
    let groups = groups.ok_or(Fault::BadDependency)?;
    if dependencies.len() > 16 {
        return Err(Fault::TooManyDependencies);
    }
    if groups.len() > 4 {
        return Err(Fault::TooManyGroups);
    }
    Ok((dependencies, groups))
}

fn dependency(value: &[u8]) -> Option<Dependency> {
    let [image, 0, 0, 0, minimum @ ..] = value else {
        return None;
    };
    Some((*image, minimum.try_into().ok()?))
}

fn group(value: &[u8]) -> Option<Vec<Dependency>> {
    if value.is_empty() || value.len() > 4 * 12 {
        return None;
    }
    value.chunks(12).map(dependency).collect()
}

fn counter(entries: &[(u16, &[u8])]) -> Result<u32, Fault> {
    let mut counters = values(entries, COUNTER_KIND);
    match (counters.next(), counters.next()) {
        (None, _) => Ok(0),
        (Some(value), None) => {
            let bytes = value.try_into().map_err(|_| Fault::BadCounter)?;
            Ok(u32::from_le_bytes(bytes))
        }
        (Some(_), Some(_)) => Err(Fault::BadCounter),
    }
}

fn read_u16(bytes: &[u8], at: usize) -> u16 {
    u16::from_le_bytes(bytes[at..at + 2].try_into().expect("two bytes"))
}

fn read_u32(bytes: &[u8], at: usize) -> u32 {
    u32::from_le_bytes(bytes[at..at + 4].try_into().expect("four bytes"))
}
