//! The choice among the requests of a table, from its text, in plain Rust.

/// The results for a text that isn't a table, and for running images that don't fit each other.
pub const NO_TABLE: u64 = 1 << 63;
pub const NOT_VALID: u64 = NO_TABLE + 1;

const MOST_IMAGES: usize = 8;
const MOST_DEPENDENCIES: usize = 16;
const MOST_GROUPS: usize = 4;
const MOST_ALTERNATIVES: usize = 4;

type Version = (u8, u8, u16, u32);

#[derive(Clone)]
struct Dependency {
    image: u8,
    minimum: Version,
}

struct Entry {
    version: Version,
    counter: u32,
    dependencies: Vec<Dependency>,
    groups: Vec<Group>,
}

/// A group: one of these dependencies has to be met.
type Group = Vec<Dependency>;

enum Request {
    None,
    Damaged,
    Entry(Entry),
}

struct Image {
    running: Entry,
    request: Request,
    floor: u32,
}

/// Why a request is refused.
#[allow(dead_code, reason = "it holds what the proved report holds")]
enum Reason {
    Damaged,
    Older,
    Counter,
    NoSuchImage(u8),
    Needs(u8, Version),
    NeedsOne(Group),
}

#[allow(dead_code, reason = "as of `Reason`")]
struct Refusal {
    image: usize,
    reason: Reason,
}

/// The result for a text, as a number of the proved library.
pub fn answer(text: &[u8]) -> u64 {
    let Some(images) = parse(text) else {
        return NO_TABLE;
    };
    if !is_valid(&images) {
        return NOT_VALID;
    }
    let refusals = std::hint::black_box(refusals(&images));
    let taken = images.iter().enumerate().filter(|(number, image)| {
        matches!(image.request, Request::Entry(_)) && !is_refused(&refusals, *number)
    });
    let mask = taken.fold(0, |mask, (number, _)| mask | 1 << number);
    mask + 256 * refusals.len() as u64
}

fn parse(text: &[u8]) -> Option<Vec<Image>> {
    let text = std::str::from_utf8(text).ok()?;
    let mut images = Vec::new();
    for line in text.strip_suffix('\n').unwrap_or(text).split('\n') {
        add_line(&mut images, line)?;
    }
    Some(images)
}

fn add_line(images: &mut Vec<Image>, line: &str) -> Option<()> {
    let mut words = line.split(' ');
    match words.next()? {
        "image" => {
            let number: u8 = number(words.next()?)?;
            if usize::from(number) != images.len() || images.len() == MOST_IMAGES {
                return None;
            }
            let running = entry(words.next()?, words.next()?)?;
            let floor = self::number(words.next()?)?;
            images.push(Image {
                running,
                request: Request::None,
                floor,
            });
        }
        "needs" => {
            let needed = dependency(words.next()?, words.next()?)?;
            let entry = last_entry(images)?;
            if !entry.groups.is_empty() || entry.dependencies.len() == MOST_DEPENDENCIES {
                return None;
            }
            entry.dependencies.push(needed);
        }
        "needs-one" => {
            let mut group = vec![dependency(words.next()?, words.next()?)?];
            while let Some(word) = words.next() {
                group.push(dependency(word, words.next()?)?);
            }
            let entry = last_entry(images)?;
            if group.len() > MOST_ALTERNATIVES || entry.groups.len() == MOST_GROUPS {
                return None;
            }
            entry.groups.push(group);
        }
        "request" => request(images, Request::Entry(entry(words.next()?, words.next()?)?))?,
        "damaged" => request(images, Request::Damaged)?,
        _ => return None,
    }
    words.next().is_none().then_some(())
}

/// The entry to which a line after its first one belongs.
fn last_entry(images: &mut [Image]) -> Option<&mut Entry> {
    let last = images.last_mut()?;
    match &mut last.request {
        Request::None => Some(&mut last.running),
        Request::Damaged => None,
        Request::Entry(entry) => Some(entry),
    }
}

fn dependency(image: &str, minimum: &str) -> Option<Dependency> {
    Some(Dependency {
        image: number(image)?,
        minimum: version(minimum)?,
    })
}

fn request(images: &mut [Image], request: Request) -> Option<()> {
    let last = images.last_mut()?;
    if !matches!(last.request, Request::None) {
        return None;
    }
    last.request = request;
    Some(())
}

fn entry(version: &str, counter: &str) -> Option<Entry> {
    Some(Entry {
        version: self::version(version)?,
        counter: number(counter)?,
        dependencies: Vec::new(),
        groups: Vec::new(),
    })
}

/// Reads a version, `major.minor.revision+build`. Parts may be missing from the right.
fn version(text: &str) -> Option<Version> {
    let (front, build) = match text.split_once('+') {
        Some((front, build)) => (front, Some(build)),
        None => (text, None),
    };
    let mut parts = front.split('.');
    let major = number(parts.next()?)?;
    let minor = parts.next().map_or(Some(0), number)?;
    let revision = parts.next();
    if parts.next().is_some() || (build.is_some() && revision.is_none()) {
        return None;
    }
    let revision = revision.map_or(Some(0), number)?;
    let build = build.map_or(Some(0), number)?;
    Some((major, minor, revision, build))
}

/// Reads a decimal number without sign and leading zeros.
fn number<N: std::str::FromStr>(text: &str) -> Option<N> {
    let is_plain = text.bytes().all(|byte| byte.is_ascii_digit());
    if !is_plain || (text.len() > 1 && text.starts_with('0')) {
        return None;
    }
    text.parse().ok()
}

fn is_valid(images: &[Image]) -> bool {
    let is_met = |needed: &Dependency| {
        let image = images.get(usize::from(needed.image));
        image.is_some_and(|image| image.running.version >= needed.minimum)
    };
    images.iter().all(|image| {
        let mut groups = image.running.groups.iter();
        image.running.dependencies.iter().all(is_met)
            && groups.all(|group| group.iter().any(is_met))
    })
}

/// The refusals: first of the requests that are refused by themselves, then repeatedly of the
/// lowest request with a need that can't be met.
fn refusals(images: &[Image]) -> Vec<Refusal> {
    let mut refusals = Vec::new();
    for (image, told) in images.iter().enumerate() {
        if let Some(reason) = own_reason(images, told) {
            refusals.push(Refusal { image, reason });
        }
    }
    while let Some(refusal) = next_refusal(images, &refusals) {
        refusals.push(refusal);
    }
    refusals
}

fn own_reason(images: &[Image], image: &Image) -> Option<Reason> {
    let entry = match &image.request {
        Request::None => return None,
        Request::Damaged => return Some(Reason::Damaged),
        Request::Entry(entry) => entry,
    };
    if entry.version < image.running.version {
        return Some(Reason::Older);
    }
    if entry.counter < image.floor {
        return Some(Reason::Counter);
    }
    let mut needs = entry.dependencies.iter();
    let missing = needs.find(|needed| usize::from(needed.image) >= images.len())?;
    Some(Reason::NoSuchImage(missing.image))
}

fn next_refusal(images: &[Image], refusals: &[Refusal]) -> Option<Refusal> {
    images.iter().enumerate().find_map(|(image, told)| {
        let Request::Entry(entry) = &told.request else {
            return None;
        };
        if is_refused(refusals, image) {
            return None;
        }
        let reason = needs_reason(images, refusals, entry)?;
        Some(Refusal { image, reason })
    })
}

fn needs_reason(images: &[Image], refusals: &[Refusal], entry: &Entry) -> Option<Reason> {
    // A request that isn't refused has at least the running version, so it is the best version.
    let is_reached = |needed: &Dependency| {
        let number = usize::from(needed.image);
        images
            .get(number)
            .is_some_and(|image| match &image.request {
                Request::Entry(best) if !is_refused(refusals, number) => {
                    best.version >= needed.minimum
                }
                _ => image.running.version >= needed.minimum,
            })
    };
    if let Some(unmet) = entry.dependencies.iter().find(|it| !is_reached(it)) {
        return Some(Reason::Needs(unmet.image, unmet.minimum));
    }
    let unmet = entry
        .groups
        .iter()
        .find(|group| !group.iter().any(is_reached))?;
    Some(Reason::NeedsOne(unmet.clone()))
}

fn is_refused(refusals: &[Refusal], number: usize) -> bool {
    refusals.iter().any(|refusal| refusal.image == number)
}
