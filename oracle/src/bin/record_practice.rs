//! Records the oracle's answers of practice days for a replay without Rust.
//!
//! Standard input: a 32-bit number of calls, then the calls. A call: four 32-bit numbers (seed, count, room, which is the length
//! of the output lent, and length of the plan lent), then the changes to the plan buffer: their 16-bit number, and for each
//! a 16-bit place, one byte count and that many bytes (`recorded`'s `change`). Numbers are little-endian.
//! The replaying program has a plan buffer of 65,536 bytes, all zero at first and never cleared, and an output of 58,368
//! bytes, each 0xA5 at first and never set again. It lends each buffer's first bytes, as many as the lengths say.
//! Standard output: for each call thirteen 64-bit numbers (`recorded`'s `answer_bytes`): the call's eleven, the digest of the
//! whole plan buffer, and that of the whole output after the call.
use oracle::LEAST_DAY;
use oracle::bay::{bay, brief, shared};
use oracle::blocks::BLOCK;
use oracle::days::{of_vehicles, one_vehicle, refused_by};
use oracle::draft::{Car, Draft, profile};
use oracle::draw::Draw;
use oracle::practice;
use oracle::recording::{Reader, digest, folder_and_seed, keep, record_changes};
use oracle::{check, generate};

const PLAN: usize = 65_536;
const OUT: usize = 58_368;
/// The replaying program reads so many bytes of the record.
const RECORD: usize = 65_536;

fn main() {
    let (folder, seed) = folder_and_seed("record_practice FOLDER [SEED]");
    let mut record = Record::default();
    bays(&mut record);
    other_sites(&mut record);
    days_given_back(&mut record);
    wrong_arguments(&mut record);
    let draw = &mut Draw::new(seed, 0);
    drawn(&mut record, draw);
    refused_plans(&mut record, draw);
    largest(&mut record, draw);
    let input = [&record.calls.to_le_bytes()[..], &record.input].concat();
    assert!(replayed(&input) == record.output, "the record reads back");
    assert!(input.len() < RECORD, "the record fits");
    keep(&folder, record.calls as usize, &input, &record.output);
}

struct Buffers {
    plan: Vec<u8>,
    out: Vec<u8>,
}

impl Default for Buffers {
    fn default() -> Self {
        Self { plan: vec![0; PLAN], out: vec![0xa5; OUT] }
    }
}

/// Seed, count, room.
type Asked = (u32, u32, usize);

impl Buffers {
    /// Asks for a day of the plan buffer's first bytes. Gives the number, and what the replaying program writes.
    fn answer(&mut self, (seed, count, room): Asked, len: usize) -> (u64, Vec<u8>) {
        let numbers = practice(&self.plan[..len], seed, count, &mut self.out[..room]);
        let digests = [&self.plan, &self.out].map(|bytes| digest(bytes.iter().map(|byte| u64::from(*byte))));
        (numbers[0], numbers.into_iter().chain(digests).flat_map(u64::to_le_bytes).collect())
    }
}

#[derive(Default)]
struct Record {
    buffers: Buffers,
    calls: u32,
    input: Vec<u8>,
    output: Vec<u8>,
}

impl Record {
    /// Records a call, whose answer is this number.
    fn add(&mut self, plan: &[u8], asked: Asked, number: u64) {
        self.calls += 1;
        for field in [asked.0, asked.1, asked.2 as u32, plan.len() as u32] {
            self.input.extend(field.to_le_bytes());
        }
        record_changes(&mut self.input, &mut self.buffers.plan, plan);
        let (answered, answer) = self.buffers.answer(asked, plan.len());
        assert_eq!(answered, number, "call {}", self.calls);
        self.output.extend(answer);
    }

    /// A day that is written, and its bytes.
    fn day(&mut self, plan: &[u8], seed: u32, count: u32) -> Vec<u8> {
        self.add(plan, (seed, count, LEAST_DAY), 0);
        self.buffers.out[..plan.len() + BLOCK * (count as usize - 1)].to_vec()
    }
}

/// The worked bay's car under many seeds and counts, and into longer outputs.
fn bays(record: &mut Record) {
    let plan = bay(&[Car::default()]).bytes();
    for (seed, count) in [(1, 64), (1, 1), (u32::MAX, 64), (u32::MAX, 2), (7, 20), (2, 63)] {
        record.day(&plan, seed, count);
    }
    for bit in 0..32 {
        record.day(&plan, 1 << bit, bit + 1);
        record.day(&plan, !(1 << bit), 64 - bit);
    }
    for room in [LEAST_DAY + 1, LEAST_DAY + 255, LEAST_DAY + BLOCK - 1, OUT] {
        record.add(&plan, (room as u32, 3, room), 0);
    }
}

/// A car of a fleet, under even shares, parked for long, with connectors, and one whose copies charge for too long.
fn other_sites(record: &mut Record) {
    let car =
        Car { fleet: 64, codes: vec![1, 5, 2], idle: 604_800.0, wait: 1_000_000, id: u32::MAX, ..brief(999_999, 0, 0) };
    let mut site = shared(0.125);
    site.set_places(64, 64);
    site.vehicles = vec![car.block()];
    let mut slow = bay(&[brief(0, 0, u32::MAX)]);
    slow.profiles[0] = profile(1, 1_024.0, &[(0.25, 0.125), (0.75, 1_024.0)]);
    let mut bare = bay(&[Car::default()]);
    bare.chargers.clear();
    for (plan, seed) in [(site.bytes(), 3), (slow.bytes(), 1), (bare.bytes(), 5)] {
        let day = record.day(&plan, seed, 64);
        record.day(&plan, seed, 7);
        assert_eq!(check(&day)[0], if seed == 1 { 12 } else { 0 });
    }
}

/// A written day of one car is a plan of one vehicle; one of more is refused.
fn days_given_back(record: &mut Record) {
    let plan = bay(&[Car::default()]).bytes();
    for seed in [1, 6, 1 << 20] {
        let one = record.day(&plan, seed, 1);
        let again = record.day(&one, seed, 1);
        assert!(one == again, "equal draws write equal bytes");
        record.day(&one, seed, 64);
        let two = record.day(&one, seed, 2);
        record.add(&two, (seed, 1, LEAST_DAY), 19);
    }
}

/// Each of 19's conditions alone, and several at once.
fn wrong_arguments(record: &mut Record) {
    let plan = bay(&[Car::default()]).bytes();
    record.add(&plan, (0, 1, LEAST_DAY), 19);
    for count in [0, 65, 66, 256, 257, 1 << 16, (1 << 16) + 1, 1 << 31, u32::MAX] {
        record.add(&plan, (1, count, LEAST_DAY), 19);
    }
    for room in [0, 1, plan.len(), plan.len() + 63 * BLOCK, LEAST_DAY - BLOCK, LEAST_DAY - 1] {
        record.add(&plan, (1, 1, room), 19);
    }
    for vehicles in [0, 2, 3, 63, 64] {
        record.add(&of_vehicles(&plan, vehicles), (1, 1, LEAST_DAY), 19);
    }
    for (vehicles, asked) in [(1, (0, 0, 0)), (0, (0, 1, LEAST_DAY)), (2, (1, 65, OUT)), (64, (1, 64, LEAST_DAY - 1))] {
        record.add(&of_vehicles(&plan, vehicles), asked, 19);
    }
    record.day(&plan, 1, 64);
}

/// Small plans of every shape with one of their vehicles.
fn drawn(record: &mut Record, draw: &mut Draw) {
    let mut plans = 0;
    while plans < 24 {
        let (name, _, _) = draw.pick(&generate::SHAPES);
        let plan = generate::shaped(name, draw).plan;
        if check(&plan)[0] > 0 {
            continue;
        }
        let plan = one_vehicle(draw, &plan);
        if plan.len() <= 6 * BLOCK {
            for count in [draw.among(1, 64) as u32, 64, 1] {
                record.day(&plan, draw.number() as u32 | 1, count);
            }
            plans += 1;
        }
    }
}

/// Plans that are refused by 4 to 12, with the arguments right, and with each and all of them wrong.
fn refused_plans(record: &mut Record, draw: &mut Draw) {
    let plan = bay(&[Car::default()]).bytes();
    for number in 4..=12 {
        for asked in [(1, 1, LEAST_DAY), (0, 1, LEAST_DAY), (1, 65, LEAST_DAY), (1, 64, LEAST_DAY - 1), (0, 0, 0)] {
            let refused = refused_by(draw, &plan, number);
            record.add(&refused, asked, number);
        }
        record.day(&plan, number as u32, 2);
    }
    let mut none = Draft::of(&plan).unwrap();
    none.vehicles.clear();
    none.profiles[0] = profile(1, 0.0, &[(0.5, 1.0)]);
    record.add(&none.bytes(), (0, 0, 0), 7);
    record.add(&[], (0, 0, 0), 4);
}

/// A largest site, of which a day of 64 fills the output to its last byte.
fn largest(record: &mut Record, draw: &mut Draw) {
    let plan = loop {
        let plan = generate::shaped("largest", draw).plan;
        if check(&plan)[0] == 0 {
            break one_vehicle(draw, &plan);
        }
    };
    for count in [64, 1, 63] {
        record.day(&plan, draw.number() as u32 | 1, count);
    }
    for room in [LEAST_DAY - 1, 0] {
        record.add(&plan, (1, 64, room), 19);
    }
    record.add(&plan, (1, 64, OUT), 0);
}

/// The record's output, as the replaying program comes to it.
fn replayed(input: &[u8]) -> Vec<u8> {
    let mut reader = Reader(input);
    let mut buffers = Buffers::default();
    (0..reader.number(4))
        .flat_map(|_| {
            let [seed, count, room, plan] = [0; 4].map(|_| reader.number(4));
            reader.change(&mut buffers.plan);
            buffers.answer((seed as u32, count as u32, room), plan).1
        })
        .collect()
}
