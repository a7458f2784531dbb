//! The book: a header block, then five sessions a block (document 01, "session.rs, the book").
use crate::blocks::{BLOCK, f64_at, put, put_f64, seal_all, u16_at, u32_at, u64_at};

pub const LEAST_BOOK: usize = 7_168;
pub const SESSION: usize = 96;
pub const SESSIONS_A_BLOCK: usize = 5;

/// A session with document 01's ids and codes. A missing field is zero bytes in the book.
#[derive(Debug, Clone, PartialEq)]
pub struct Entry {
    pub vehicle: u32,
    pub profile: u32,
    pub charger: Option<u32>,
    pub connector: Option<u8>,
    pub outcome: u8,
    /// Request 9: of every outcome; 0 where the vehicle has none.
    pub fleet: u16,
    pub arrival: u64,
    pub plugin: Option<u64>,
    pub unplug: Option<u64>,
    pub wait: u64,
    pub duration: Option<f64>,
    pub idle: Option<f64>,
    pub peak: Option<f64>,
    pub energy: Option<f64>,
    pub start: f64,
    pub end: Option<f64>,
}

impl Entry {
    /// The sixteen numbers that reading the book gives for it; a float is its bits.
    pub fn numbers(&self) -> [u64; 16] {
        let bits = |value: Option<f64>| value.map_or(0, f64::to_bits);
        [
            u64::from(self.vehicle),
            u64::from(self.profile),
            u64::from(self.charger.unwrap_or(0)),
            u64::from(self.connector.unwrap_or(0)),
            u64::from(self.outcome),
            u64::from(self.fleet),
            self.arrival,
            self.plugin.unwrap_or(0),
            self.unplug.unwrap_or(0),
            self.wait,
            bits(self.duration),
            bits(self.idle),
            bits(self.peak),
            bits(self.energy),
            self.start.to_bits(),
            bits(self.end),
        ]
    }
}

/// The bytes that a book of so many sessions takes.
pub fn book_bytes(sessions: usize) -> usize {
    BLOCK * (1 + sessions.div_ceil(SESSIONS_A_BLOCK))
}

/// Writes the book to the front of the buffer; what lies past its last block stays.
pub fn write(book: &mut [u8], engine: u8, ended: bool, used: u64, entries: &[Entry]) {
    let book = &mut book[..book_bytes(entries.len())];
    book.fill(0);
    put(book, 0, b"BOOK");
    put(book, 4, &(entries.len() as u16).to_le_bytes());
    book[6] = engine;
    book[7] = u8::from(ended);
    put(book, 8, &used.to_le_bytes());
    write_sessions(&mut book[BLOCK..], entries);
    seal_all(book);
}

/// Lays sessions out five a block, in a book's blocks of sessions or a dump's, which are zero before.
pub fn write_sessions(blocks: &mut [u8], entries: &[Entry]) {
    for (k, entry) in entries.iter().enumerate() {
        write_entry(&mut blocks[session_at(k)..][..SESSION], entry);
    }
}

/// Where session k begins in the blocks of sessions.
pub fn session_at(k: usize) -> usize {
    BLOCK * (k / SESSIONS_A_BLOCK) + SESSION * (k % SESSIONS_A_BLOCK)
}

/// The places that blocks of sessions have for sessions, used or not.
pub fn slots(blocks: &[u8]) -> impl Iterator<Item = &[u8; SESSION]> {
    let places = blocks.chunks_exact(BLOCK).flat_map(|block| block[..SESSIONS_A_BLOCK * SESSION].chunks_exact(SESSION));
    places.map(|session| session.try_into().unwrap())
}

fn write_entry(session: &mut [u8], entry: &Entry) {
    put(session, 0, &entry.vehicle.to_le_bytes());
    put(session, 4, &entry.profile.to_le_bytes());
    put(session, 8, &entry.charger.unwrap_or(0).to_le_bytes());
    session[12] = entry.connector.unwrap_or(0);
    session[13] = entry.outcome;
    put(session, 14, &entry.fleet.to_le_bytes());
    put(session, 16, &entry.arrival.to_le_bytes());
    put(session, 24, &entry.plugin.unwrap_or(0).to_le_bytes());
    put(session, 32, &entry.unplug.unwrap_or(0).to_le_bytes());
    put(session, 40, &entry.wait.to_le_bytes());
    put_f64(session, 48, entry.duration.unwrap_or(0.0));
    put_f64(session, 56, entry.idle.unwrap_or(0.0));
    put_f64(session, 64, entry.peak.unwrap_or(0.0));
    put_f64(session, 72, entry.energy.unwrap_or(0.0));
    put_f64(session, 80, entry.start);
    put_f64(session, 88, entry.end.unwrap_or(0.0));
}

/// The sessions of a book. Which fields are missing follows from the outcome.
pub fn read(book: &[u8]) -> Vec<Entry> {
    slots(&book[BLOCK..]).take(usize::from(u16_at(book, 4))).map(read_entry).collect()
}

fn read_entry(session: &[u8; SESSION]) -> Entry {
    let outcome = session[13];
    let (plugged, charged) = (outcome <= 1, outcome == 1);
    Entry {
        vehicle: u32_at(session, 0),
        profile: u32_at(session, 4),
        charger: plugged.then(|| u32_at(session, 8)),
        connector: plugged.then(|| session[12]),
        outcome,
        fleet: u16_at(session, 14),
        arrival: u64_at(session, 16),
        plugin: plugged.then(|| u64_at(session, 24)),
        unplug: charged.then(|| u64_at(session, 32)),
        wait: u64_at(session, 40),
        duration: charged.then(|| f64_at(session, 48)),
        idle: plugged.then(|| f64_at(session, 56)),
        peak: charged.then(|| f64_at(session, 64)),
        energy: charged.then(|| f64_at(session, 72)),
        start: f64_at(session, 80),
        end: plugged.then(|| f64_at(session, 88)),
    }
}
