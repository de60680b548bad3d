//! Plans a fleet from standard input in plain Rust: the counterpart of `bootswap plan --summary`.

mod plain_choice;

use plain_choice::{NOT_VALID, NO_TABLE, answer};
use std::collections::BTreeMap;
use std::io;
use std::io::{BufRead, BufReader};

/// What is counted: for each result how many devices have it, and the first of them.
type Counts = BTreeMap<u64, (u64, Vec<u8>)>;

/// The bytes that are read at a time, as `bootswap` reads them.
const PIECE: usize = 1 << 16;

fn main() -> io::Result<()> {
    let mut input = BufReader::with_capacity(PIECE, io::stdin().lock());
    let (mut counts, mut name, mut table) = (Counts::new(), None, Vec::new());
    let mut line = Vec::new();
    while input.read_until(b'\n', &mut line)? > 0 {
        match line.strip_prefix(b"device ") {
            Some(next) => {
                count(&mut counts, name.replace(next.to_vec()), &table);
                table.clear();
            }
            None => table.extend_from_slice(&line),
        }
        line.clear();
    }
    count(&mut counts, name, &table);
    for (result, (many, _)) in counts {
        println!("{many} {}", text_of(result));
    }
    Ok(())
}

/// Counts the result of a device.
fn count(counts: &mut Counts, name: Option<Vec<u8>>, table: &[u8]) {
    if let Some(name) = name {
        counts.entry(answer(table)).or_insert((0, name)).0 += 1;
    }
}

/// The text of a result: the set that is taken, as a mask, or that there is none.
fn text_of(result: u64) -> String {
    match result {
        NO_TABLE => "bad".to_string(),
        NOT_VALID => "not-valid".to_string(),
        _ => format!("take {} refused {}", result % 256, result / 256),
    }
}
