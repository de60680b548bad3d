//! The numbers, names and lengths of this crate are those of `bootswap.h` and `bootswap_names.h`.

use bootswap::{
    journal, Fault, ImageFault, ManifestFault, Phase, Reason, Setup, Status, UploadFault,
    MAX_ALTERNATIVES, MAX_DEPENDENCIES, MAX_GROUPS, MAX_IMAGES, MAX_REPORT_LENGTH,
    MAX_TABLE_LENGTH,
};

/// Returns the text of a header. build.rs names the folder.
fn header(name: &str) -> String {
    let path = format!("{}/{}", env!("BOOTSWAP_HEADERS"), name);
    std::fs::read_to_string(&path).unwrap_or_else(|error| panic!("{}: {}", path, error))
}

/// Returns the names and numbers of an enum of the header, as `NO_MAP` and 16.
fn numbers_of(name: &str) -> Vec<(String, u32)> {
    let text = header("bootswap.h");
    let body = text.split(&format!("enum {} {{", name)).nth(1).expect(name);
    let rows = body.split("};").next().unwrap().lines().filter_map(|line| {
        let (name, rest) = line.trim().strip_prefix("BOOTSWAP_")?.split_once(" = ")?;
        let digits: String = rest.chars().take_while(char::is_ascii_digit).collect();
        Some((name.to_string(), digits.parse().unwrap()))
    });
    rows.collect()
}

/// Returns the names of bootswap_names.h for the constants of an enum, as `NO_MAP` and `no-map`.
fn names_of(function: &str) -> Vec<(String, String)> {
    let text = header("bootswap_names.h");
    let body = text.split(&format!("*{}(uint32_t", function)).nth(1).expect(function);
    let rows = body.split("\n}").next().unwrap().lines().filter_map(|line| {
        let (name, rest) = line.trim().strip_prefix("case BOOTSWAP_")?.split_once(": return \"")?;
        Some((name.to_string(), rest.trim_end_matches("\";").to_string()))
    });
    rows.collect()
}

/// Returns the list of names in a function of bootswap_names.h, from number 1 on.
fn list_of(function: &str) -> Vec<String> {
    let text = header("bootswap_names.h");
    let body = text.split(&format!("*{}(uint32_t", function)).nth(1).expect(function);
    let list = body.split("names[] = {").nth(1).unwrap().split('}').next().unwrap();
    list.split('"').skip(1).step_by(2).map(str::to_string).collect()
}

/// `NO_MAP` as a variant: `NoMap`.
fn camel(name: &str) -> String {
    let word = |it: &str| it[..1].to_string() + &it[1..].to_lowercase();
    name.split('_').map(word).collect()
}

/// A value: its variant, its number and its name.
type Row = (String, u32, &'static str);

macro_rules! rows {
    ($kind:ident) => {
        (0..100)
            .filter_map($kind::from_number)
            .map(|it| (format!("{:?}", it), it.number(), it.name()))
            .collect()
    };
}

/// The rows of values with fields, whose variant is the front of what `Debug` prints.
macro_rules! rows_with_fields {
    ($($value:expr),*) => {
        vec![$({
            let text = format!("{:?}", $value);
            (text.split('(').next().unwrap().to_string(), $value.number(), $value.name())
        }),*]
    };
}

fn compare(kind: &str, rows: Vec<Row>) {
    let numbers = numbers_of(kind);
    let wanted: Vec<(String, u32)> = numbers.iter().map(|(name, at)| (camel(name), *at)).collect();
    let found: Vec<(String, u32)> = rows.iter().map(|it| (it.0.clone(), it.1)).collect();
    assert!(!wanted.is_empty());
    assert_eq!(found, wanted, "{}", kind);
    let names = names_of(&format!("{}_name", kind));
    let wanted: Vec<&str> = names.iter().map(|it| it.1.as_str()).collect();
    assert_eq!(rows.iter().map(|it| it.2).collect::<Vec<_>>(), wanted, "{}", kind);
}

fn compare_list(function: &str, rows: Vec<Row>) {
    let wanted = list_of(function);
    let found: Vec<(u32, &str)> = rows.iter().map(|it| (it.1, it.2)).collect();
    let wanted: Vec<(u32, &str)> = (1..).zip(wanted.iter().map(String::as_str)).collect();
    assert!(!wanted.is_empty());
    assert_eq!(found, wanted, "{}", function);
}

#[test]
fn numbers_and_names() {
    compare("bootswap_status", rows!(Status));
    compare("bootswap_manifest_fault", rows!(ManifestFault));
    compare(
        "bootswap_fault",
        rows_with_fields![
            Fault::NotBooted,
            Fault::OnTrial,
            Fault::NotOnTrial,
            Fault::NotProvisioned,
            Fault::RunningDamaged(3),
            Fault::RunningInvalid,
            Fault::Manifest(ManifestFault::BadValue),
            Fault::Upload(UploadFault::TooBig)
        ],
    );
    compare(
        "bootswap_upload_fault",
        rows_with_fields![
            UploadFault::OldSequence,
            UploadFault::TooBig,
            UploadFault::NoSession,
            UploadFault::TooMuch,
            UploadFault::SizeWrong,
            UploadFault::DigestWrong,
            UploadFault::NotAnImage(ImageFault::Short),
            UploadFault::WrongPrecursor,
            UploadFault::NothingRequested
        ],
    );
    compare_list("bootswap_check_name", rows!(ImageFault));
    compare_list("bootswap_reason_name", rows!(Reason));
}

#[test]
fn phases() {
    let text = header("bootswap.h");
    let line = text.lines().find(|it| it.contains("the phase of an upgrade")).unwrap();
    let list = line.split("/* ").nth(1).unwrap().split(':').next().unwrap();
    let rows: Vec<Row> = rows!(Phase);
    let found: Vec<String> = rows.iter().map(|it| format!("{} {}", it.1, it.2)).collect();
    assert_eq!(found.join(", "), list);
}

/// Returns a number that the header defines.
fn defined(name: &str) -> String {
    let text = header("bootswap.h").replace("\\\n", " ");
    let line = text.lines().find(|it| it.starts_with(&format!("#define {}", name))).expect(name);
    line[8 + name.len()..].trim().to_string()
}

#[test]
fn limits_and_version() {
    let limits = [
        ("IMAGES ", MAX_IMAGES),
        ("DEPENDENCIES ", MAX_DEPENDENCIES),
        ("GROUPS ", MAX_GROUPS),
        ("ALTERNATIVES ", MAX_ALTERNATIVES),
        ("TABLE_LENGTH ", MAX_TABLE_LENGTH),
        ("REPORT_LENGTH ", MAX_REPORT_LENGTH),
    ];
    for (name, limit) in limits {
        assert_eq!(defined(&format!("BOOTSWAP_MAX_{}", name)), limit.to_string(), "{}", name);
    }
    assert_eq!(defined("BOOTSWAP_VERSION "), format!("{:?}", env!("CARGO_PKG_VERSION")));
}

/// Evaluates a sum of products, with numbers, brackets and the quotients of the header.
struct Sum<'t>(&'t [String], usize);

impl Sum<'_> {
    fn next(&mut self) -> &str {
        self.1 += 1;
        &self.0[self.1 - 1]
    }

    fn is_at(&self, sign: &str) -> bool {
        self.0.get(self.1).map_or(false, |it| it == sign)
    }

    fn sum(&mut self) -> usize {
        let mut value = self.product();
        while self.is_at("+") {
            self.next();
            value += self.product();
        }
        value
    }

    fn product(&mut self) -> usize {
        let mut value = self.factor();
        while self.is_at("*") || self.is_at("/") {
            let is_product = self.next() == "*";
            let other = self.factor();
            value = if is_product { value * other } else { value / other };
        }
        value
    }

    fn factor(&mut self) -> usize {
        let word = self.next().to_string();
        if word != "(" {
            return word.parse().unwrap_or_else(|_| panic!("{}", word));
        }
        let value = self.sum();
        assert_eq!(self.next(), ")");
        value
    }
}

/// Returns a bound of the journal, as the macro of the header defines it.
fn bound(name: &str, values: &[(&str, usize)]) -> usize {
    let text = defined(&format!("BOOTSWAP_JOURNAL_{}", name));
    let body = if values.is_empty() { &text } else { text.split_once(") ").unwrap().1 };
    let mut body = body.replace("(size_t)", "");
    if name == "BOOT(" {
        let step = bound("STEP(", &values[1..]);
        body = body.replace("BOOTSWAP_JOURNAL_STEP(sector_size)", &step.to_string());
    }
    for (name, value) in values {
        body = body.replace(name, &value.to_string());
    }
    let spaced = body.replace('(', " ( ").replace(')', " ) ");
    let words: Vec<String> = spaced.split_whitespace().map(str::to_string).collect();
    let mut sum = Sum(&words, 0);
    let value = sum.sum();
    assert_eq!(sum.1, words.len(), "{}", body);
    value
}

#[test]
fn journal_bounds() {
    for images in [1, 2, 8] {
        assert_eq!(journal::provision(images), bound("PROVISION(", &[("images", images)]));
        for sector_size in [512, 576, 4096, 131072] {
            let values = [("images", images), ("sector_size", sector_size)];
            assert_eq!(journal::boot(images, sector_size), bound("BOOT(", &values));
            assert_eq!(journal::step(sector_size), bound("STEP(", &values[1..]));
        }
        for sectors in [1, 5, 8388607] {
            let values = [("components", images), ("sectors", sectors)];
            assert_eq!(journal::accept(images, sectors), bound("ACCEPT(", &values));
        }
    }
    for length in [0, 1, 4096] {
        assert_eq!(journal::piece(length), bound("PIECE(", &[("length", length)]));
    }
    assert_eq!(journal::FINISH, bound("FINISH ", &[]));
    assert_eq!(journal::WITHDRAW, bound("WITHDRAW ", &[]));
    assert_eq!(journal::CONFIRM, bound("CONFIRM ", &[]));
}

#[test]
fn map() {
    // docs/PORTING.md: E x (2 x (n_0 + 1 + n_1 + 1 + ..) + 4).
    assert_eq!(Setup::new(4096, &[32, 16], 3).map_length(), 4096 * (2 * (33 + 17) + 4));
    assert_eq!(Setup::new(4096, &[72, 40], 3).primary_slot_at(1), Some(0x5d000 - 0x14000));
    assert_eq!(Setup::new(4096, &[72, 40], 3).primary_slot_at(2), None);
}
