//! Records the oracle's answers of reading books for a replay without Rust. The README describes the form.
use oracle::bay;
use oracle::blocks::{BLOCK, put, reseal, seal_all};
use oracle::books::List;
use oracle::draw::Draw;
use oracle::recording::{Reader, digest, folder_and_seed, keep, record_changes};
use oracle::{Header, Sessions, program, read_book};

/// The replaying program's buffer of books, all zero at first and never cleared.
const BOOK: usize = 7_680;

fn main() {
    let (folder, seed) = folder_and_seed("record_books FOLDER [SEED]");
    let mut record = Record::default();
    let draw = &mut Draw::new(seed, 0);
    lengths(&mut record);
    lists(&mut record, draw);
    runs(&mut record);
    faults(&mut record, draw);
    let input = [&record.cases.to_le_bytes()[..], &record.input].concat();
    assert!(replayed(&input) == record.output, "the record reads back");
    keep(&folder, record.cases as usize, &input, &record.output);
}

struct Buffers {
    book: Vec<u8>,
    header: Header,
    sessions: Sessions,
}

impl Default for Buffers {
    fn default() -> Self {
        Self { book: vec![0; BOOK], header: [7; 4], sessions: [7; 1024] }
    }
}

impl Buffers {
    /// Reads the buffer's first bytes. Gives what the replaying program writes.
    fn answer(&mut self, len: usize) -> (u64, Vec<u8>) {
        let numbers = read_book(&self.book[..len], &mut self.header, &mut self.sessions);
        let words = numbers.into_iter().chain([digest(self.header), digest(self.sessions)]);
        (numbers[0], words.flat_map(u64::to_le_bytes).collect())
    }
}

#[derive(Default)]
struct Record {
    buffers: Buffers,
    cases: u32,
    input: Vec<u8>,
    output: Vec<u8>,
}

impl Record {
    /// Records the call on these bytes, whose answer is this number.
    fn add(&mut self, book: &[u8], number: u64) {
        self.cases += 1;
        self.input.extend((book.len() as u32).to_le_bytes());
        record_changes(&mut self.input, &mut self.buffers.book, book);
        let (answered, answer) = self.buffers.answer(book.len());
        assert_eq!(answered, number, "case {}", self.cases);
        self.output.extend(answer);
    }

    /// The book with these bytes at a place, the check made good again.
    fn changed(&mut self, book: &[u8], at: usize, bytes: &[u8], number: u64) {
        let mut changed = book.to_vec();
        put(&mut changed, at, bytes);
        reseal(&mut changed, at / BLOCK);
        self.add(&changed, number);
    }

    /// The book with another byte: with the check as it was, and made good again.
    fn byte(&mut self, book: &[u8], at: usize, byte: u8, number: u64) {
        let mut changed = book.to_vec();
        changed[at] = byte;
        self.add(&changed, 15);
        self.changed(book, at, &[byte], number);
    }
}

/// Zero bytes of several lengths, and blocks of them with their checks.
fn lengths(record: &mut Record) {
    for len in [0, 1, 511, 512, 513, 7_167, 7_168, 7_169, BOOK] {
        record.add(&vec![0; len], 15);
    }
    for (blocks, number) in [(1, 16), (2, 16), (14, 16), (15, 15)] {
        let mut book = vec![0; blocks * BLOCK];
        seal_all(&mut book);
        record.add(&book, number);
    }
}

/// Books of the first sessions of one list, from none to one too many, and again of few after many.
fn lists(record: &mut Record, draw: &mut Draw) {
    let outcomes: Vec<u8> = (0..70).map(|k| [1, 0, 2, 3][k % 4]).collect();
    let mut list = List::of_outcomes(draw, &outcomes);
    let entries = std::mem::take(&mut list.entries);
    for (engine, ended, used) in [(0, true, 0), (1, false, u64::MAX), (0, false, 1 << 32), (1, true, 10_000_001)] {
        list = List { engine, ended, used, ..list };
        record.add(&list.book(), 0);
    }
    for count in [1, 2, 3, 4, 5, 6, 10, 11, 63, 64, 6, 1, 0] {
        list.entries = entries[..count].to_vec();
        record.add(&list.book(), 0);
    }
    for (count, number) in [(65, 16), (66, 15), (70, 15)] {
        list.entries = entries[..count].to_vec();
        record.add(&list.book(), number);
    }
}

/// The books of the worked cases, of which the last is refused as a plan, and those of a lane of fleets.
fn runs(record: &mut Record) {
    let lane = bay::lane().bytes();
    let cuts = [(0, 9), (0, 10_000_000), (1, 62), (1, 10_000_000)];
    let lanes = cuts.map(|(engine, allowance)| program::input(engine, allowance, &lane));
    for (book, numbers) in bay::worked().iter().chain(&lanes).map(|input| program::output(input)) {
        if numbers[0] == 0 {
            record.add(&book, 0);
        }
    }
}

/// Six sessions: charged, open, reneged, balked and charged in one block, open in the next.
fn faults(record: &mut Record, draw: &mut Draw) {
    let book = List::of_outcomes(draw, &[1, 0, 2, 3, 1, 0]).book();
    let session = |k: usize| BLOCK + if k == 5 { BLOCK } else { 96 * k };
    for (at, byte) in [(0, b'b'), (3, 0), (6, 2), (7, 2), (7, 255), (16, 1), (300, 1), (507, 128)] {
        record.byte(&book, at, byte, 16);
    }
    for count in [0u16, 1, 5, 7, 10, 11, 65, 262, u16::MAX] {
        record.changed(&book, 4, &count.to_le_bytes(), 16);
    }
    for (k, at, byte) in [(0, 12, 0), (0, 12, 6), (1, 12, 255), (0, 13, 4), (4, 13, 255), (3, 13, 1), (2, 12, 5)] {
        record.byte(&book, session(k) + at, byte, 16);
    }
    for (k, at) in [(1, 32), (5, 48), (1, 71), (5, 79), (2, 8), (3, 24), (2, 39), (3, 55), (2, 63), (3, 95), (0, 14)] {
        record.changed(&book, session(k) + at, &[128], 16);
    }
    for k in 0..6 {
        for (fleet, number) in [(0u16, 0), (64, 0), (65, 16), (256, 16)] {
            record.changed(&book, session(k) + 14, &fleet.to_le_bytes(), number);
        }
    }
    for at in [BLOCK + 480, 3 * BLOCK - 5, 2 * BLOCK + 96, 2 * BLOCK + 479] {
        record.byte(&book, at, 1, 16);
    }
    for at in [BLOCK - 4, BLOCK, session(1) + 24, session(2) + 40, session(5) + 88, 8] {
        record.byte(&book, at, !book[at], 0);
    }
    blocks(record, &book);
}

/// The book cut short, longer, with blocks swapped, and with two things wrong.
fn blocks(record: &mut Record, book: &[u8]) {
    for (len, number) in [(BLOCK, 16), (2 * BLOCK, 16), (3 * BLOCK - 1, 15), (3 * BLOCK, 0)] {
        record.add(&book[..len], number);
    }
    let mut longer = [book, &[0; BLOCK]].concat();
    record.add(&longer, 15);
    seal_all(&mut longer);
    record.add(&longer, 16);
    let mut swapped = [&book[..BLOCK], &book[2 * BLOCK..], &book[BLOCK..2 * BLOCK]].concat();
    record.add(&swapped, 15);
    seal_all(&mut swapped);
    record.add(&swapped, 16);
    let mut twice = book.to_vec();
    twice[6] = 2;
    reseal(&mut twice, 0);
    twice[3 * BLOCK - 1] ^= 1;
    record.add(&twice, 15);
    record.add(book, 0);
}

/// The record's output, as the replaying program comes to it.
fn replayed(input: &[u8]) -> Vec<u8> {
    let mut reader = Reader(input);
    let mut buffers = Buffers::default();
    (0..reader.number(4))
        .flat_map(|_| {
            let len = reader.number(4);
            reader.change(&mut buffers.book);
            buffers.answer(len).1
        })
        .collect()
}
