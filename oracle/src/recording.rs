//! What the records of answers share: changes to a replaying program's buffer, digests, and the folder.
use crate::arguments::{Words, stop};
use std::path::Path;

/// The folder and the seed that a recording command is given.
pub fn folder_and_seed(usage: &'static str) -> (String, u64) {
    let mut words = Words::of(usage);
    let folder = words.needed("FOLDER");
    if folder.starts_with('-') {
        words.wrong(format!("{folder} is no folder"));
    }
    let seed = words.number_or("SEED", 1);
    words.end();
    (folder, seed)
}

/// Writes a record of so many cases to its folder, which is made where it is not there.
pub fn keep(folder: &str, cases: usize, input: &[u8], output: &[u8]) {
    write(Path::new(folder), input, output).unwrap_or_else(|error| stop(format!("{folder}: {error}")));
    println!("{cases} cases, {} bytes in, {} bytes out", input.len(), output.len());
}

fn write(folder: &Path, input: &[u8], output: &[u8]) -> std::io::Result<()> {
    std::fs::create_dir_all(folder)?;
    std::fs::write(folder.join("stdin"), input)?;
    std::fs::write(folder.join("stdout"), output)
}

/// A number that goes by every number and by their order: 31 times the one so far, and the number.
pub fn digest(numbers: impl IntoIterator<Item = u64>) -> u64 {
    numbers.into_iter().fold(0, |sum: u64, number| sum.wrapping_mul(31).wrapping_add(number))
}

/// Records how the buffer's front turns into the bytes, and makes the changes: their 16-bit number, then for each a 16-bit
/// place, one byte count and that many bytes.
pub fn record_changes(record: &mut Vec<u8>, buffer: &mut [u8], bytes: &[u8]) {
    let changes = changes(buffer, bytes);
    record.extend((changes.len() as u16).to_le_bytes());
    for (at, bytes) in changes {
        record.extend((at as u16).to_le_bytes());
        record.push(bytes.len() as u8);
        record.extend(bytes);
    }
    buffer[..bytes.len()].copy_from_slice(bytes);
}

/// Runs of bytes, each at most 255 long, that turn the buffer's front into the input.
fn changes<'a>(buffer: &[u8], input: &'a [u8]) -> Vec<(usize, &'a [u8])> {
    let mut changes = Vec::new();
    let mut at = 0;
    while at < input.len() {
        if input[at] == buffer[at] {
            at += 1;
            continue;
        }
        // A run goes on over up to three equal bytes, which cost no more than a new run.
        let (mut end, mut last) = (at, at);
        while end < input.len() && end - last <= 3 && end - at < 255 {
            if input[end] != buffer[end] {
                last = end;
            }
            end += 1;
        }
        changes.push((at, &input[at..=last]));
        at = last + 1;
    }
    changes
}

/// A record as the replaying program reads it.
pub struct Reader<'a>(pub &'a [u8]);

impl<'a> Reader<'a> {
    pub fn take(&mut self, count: usize) -> &'a [u8] {
        let (taken, left) = self.0.split_at(count);
        self.0 = left;
        taken
    }

    pub fn number(&mut self, bytes: usize) -> usize {
        self.take(bytes).iter().rev().fold(0, |sum, byte| sum * 256 + usize::from(*byte))
    }

    /// Makes the changes that come next.
    pub fn change(&mut self, buffer: &mut [u8]) {
        for _ in 0..self.number(2) {
            let at = self.number(2);
            let count = self.number(1);
            buffer[at..at + count].copy_from_slice(self.take(count));
        }
    }
}
