//! The dump of a run by events (request 1): a header block, then 31 events a block, then sessions as in a book.
use crate::blocks::{BLOCK, put, seal_all, u16_at, u64_at};
use crate::book::{Entry, SESSION, SESSIONS_A_BLOCK, slots, write_sessions};

pub const LEAST_DUMP: usize = 16_384;
pub const EVENT: usize = 16;
pub const EVENTS_A_BLOCK: usize = 31;
/// Where the header has the handled count, the queue and the busy chargers.
pub const USED: usize = 16;
pub const QUEUE: usize = 24;
pub const BUSY: usize = 152;

/// A pending event: its kind is 0 arrival, 1 renege, 2 unplug; its block is the charger's for an unplug, else the vehicle's.
#[derive(Debug, Clone, PartialEq)]
pub struct Pending {
    pub time: u64,
    pub kind: u8,
    pub block: usize,
}

/// A run after its last handled event. A block is a place in the plan's file, the header being 1.
pub struct State {
    pub used: u64,
    /// The vehicles' blocks in queue order.
    pub queue: Vec<usize>,
    /// The blocks of each busy charger and of its vehicle, in plan order.
    pub busy: Vec<[usize; 2]>,
    /// In pop order.
    pub events: Vec<Pending>,
    pub sessions: Vec<Entry>,
}

/// The bytes that a dump takes.
pub fn dump_bytes(events: usize, sessions: usize) -> usize {
    BLOCK * (1 + events.div_ceil(EVENTS_A_BLOCK) + sessions.div_ceil(SESSIONS_A_BLOCK))
}

/// The bytes of the dump that these begin with, by the counts of its header.
pub fn length(dump: &[u8]) -> usize {
    dump_bytes(usize::from(u16_at(dump, 8)), usize::from(u16_at(dump, 10)))
}

/// The count of handled events that the bytes name; none where they are too few.
pub fn handled(dump: &[u8]) -> Option<u64> {
    (dump.len() >= USED + 8).then(|| u64_at(dump, USED))
}

/// Where event k begins in a dump.
fn event_at(k: usize) -> usize {
    BLOCK * (1 + k / EVENTS_A_BLOCK) + EVENT * (k % EVENTS_A_BLOCK)
}

/// The events of a dump, in its order.
pub fn events(dump: &[u8]) -> Vec<Pending> {
    let read = |at| Pending { time: u64_at(dump, at), kind: dump[at + 8], block: usize::from(u16_at(dump, at + 10)) };
    (0..usize::from(u16_at(dump, 8))).map(|k| read(event_at(k))).collect()
}

/// The bytes of each session of a dump.
pub fn sessions(dump: &[u8]) -> Vec<&[u8; SESSION]> {
    let from = dump_bytes(usize::from(u16_at(dump, 8)), 0);
    slots(&dump[from..]).take(usize::from(u16_at(dump, 10))).collect()
}

pub fn written(state: &State) -> Vec<u8> {
    let mut dump = vec![0; dump_bytes(state.events.len(), state.sessions.len())];
    write_header(&mut dump[..BLOCK], state);
    for (k, event) in state.events.iter().enumerate() {
        write_event(&mut dump[event_at(k)..][..EVENT], event);
    }
    write_sessions(&mut dump[dump_bytes(state.events.len(), 0)..], &state.sessions);
    seal_all(&mut dump);
    dump
}

fn word(number: usize) -> [u8; 2] {
    u16::try_from(number).expect("a count or a block").to_le_bytes()
}

fn write_header(header: &mut [u8], state: &State) {
    put(header, 0, b"DUMP");
    put(header, 4, &word(state.queue.len()));
    put(header, 6, &word(state.busy.len()));
    put(header, 8, &word(state.events.len()));
    put(header, 10, &word(state.sessions.len()));
    put(header, USED, &state.used.to_le_bytes());
    for (k, vehicle) in state.queue.iter().enumerate() {
        put(header, QUEUE + 2 * k, &word(*vehicle));
    }
    for (k, [charger, vehicle]) in state.busy.iter().enumerate() {
        put(header, BUSY + 4 * k, &word(*charger));
        put(header, BUSY + 4 * k + 2, &word(*vehicle));
    }
}

fn write_event(bytes: &mut [u8], event: &Pending) {
    put(bytes, 0, &event.time.to_le_bytes());
    bytes[8] = event.kind;
    put(bytes, 10, &word(event.block));
}
