//! Records the oracle's answers of scripts for the cabinets' registers for a replay without Rust.
//!
//! Standard input: a 32-bit number of calls, then the calls. A call: three 32-bit numbers (operations, which is the length of the
//! script lent, room, which is the length of the output lent, and length of the plan lent), then the changes to the plan
//! buffer: their 16-bit number, and for each a 16-bit place, one byte count and that many bytes (`recorded`'s `change`); then the
//! operations, 64-bit numbers. Numbers are little-endian.
//! The replaying program has a plan buffer of 65,536 bytes, all zero at first and never cleared, a script of 1,024 numbers, all
//! zero at first, of which a call's operations replace the first, and an output of 2,304 bytes, each 0xA5 at first and never set
//! again. It lends each buffer's front, as far as the lengths say.
//! Standard output: for each call thirteen 64-bit numbers (`recorded`'s `answer_bytes`): the call's eleven, the digest of the
//! whole plan buffer, and that of the whole output after the call.
use oracle::bay::{bay, brief, lane, shared};
use oracle::blocks::{BLOCK, u32_at};
use oracle::days::{one_vehicle, refused_by};
use oracle::draft::{Car, Draft, charger, profile};
use oracle::draw::Draw;
use oracle::panel;
use oracle::panels::Operation::{self, Line, Read, Rounds, Write};
use oracle::recording::{Reader, digest, folder_and_seed, keep, record_changes};
use oracle::{check, generate};

const PLAN: usize = 65_536;
const SCRIPT: usize = 1_024;
const OUT: usize = 2_304;
/// The record is kept below so many bytes.
const RECORD: usize = 60_000;

fn main() {
    let (folder, seed) = folder_and_seed("record_panel FOLDER [SEED]");
    let mut record = Record::default();
    bays(&mut record);
    bits(&mut record);
    addresses(&mut record);
    outputs(&mut record);
    sums(&mut record);
    other_sites(&mut record);
    let draw = &mut Draw::new(seed, 0);
    drawn(&mut record, draw);
    refused_plans(&mut record, draw);
    largest(&mut record, draw);
    let input = [&record.calls.to_le_bytes()[..], &record.input].concat();
    assert!(replayed(&input) == record.output, "the record reads back");
    assert!(input.len() < RECORD, "the record fits, of {} bytes", input.len());
    keep(&folder, record.calls as usize, &input, &record.output);
}

struct Buffers {
    plan: Vec<u8>,
    script: Vec<u64>,
    out: Vec<u8>,
}

impl Default for Buffers {
    fn default() -> Self {
        Self { plan: vec![0; PLAN], script: vec![0; SCRIPT], out: vec![0xa5; OUT] }
    }
}

impl Buffers {
    /// Plays the script buffer's front. Gives the number, and what the replaying program writes.
    fn answer(&mut self, operations: usize, room: usize, plan: usize) -> (u64, Vec<u8>) {
        let numbers = panel(&self.plan[..plan], &self.script[..operations], &mut self.out[..room]);
        let digests = [&self.plan, &self.out].map(|bytes| digest(bytes.iter().map(|byte| u64::from(*byte))));
        (numbers[0], numbers.into_iter().chain(digests).flat_map(u64::to_le_bytes).collect())
    }
}

#[derive(Default)]
struct Record {
    buffers: Buffers,
    calls: u32,
    input: Vec<u8>,
    output: Vec<u8>,
}

impl Record {
    /// Records a call, whose answer is this number.
    fn add(&mut self, plan: &[u8], script: &[u64], room: usize, number: u64) {
        self.calls += 1;
        for field in [script.len(), room, plan.len()] {
            self.input.extend((field as u32).to_le_bytes());
        }
        record_changes(&mut self.input, &mut self.buffers.plan, plan);
        self.input.extend(script.iter().flat_map(|operation| operation.to_le_bytes()));
        self.buffers.script[..script.len()].copy_from_slice(script);
        let (answered, answer) = self.buffers.answer(script.len(), room, plan.len());
        assert_eq!(answered, number, "call {}", self.calls);
        self.output.extend(answer);
    }

    /// A script that is played whole.
    fn play(&mut self, plan: &[u8], script: &[Operation]) {
        let numbers: Vec<u64> = script.iter().map(|operation| operation.number(0)).collect();
        self.add(plan, &numbers, 2 * numbers.len(), 0);
    }
}

fn image(charger: u32) -> impl Iterator<Item = Operation> {
    (16 * charger..16 * charger + 16).map(Read)
}

/// Two cars at one charger. The first plugs in in round 1 and is freed in round 3, in which the second plugs in; that is freed in
/// round 6.
fn two_cars() -> Draft {
    let car = |arrival, wait| Car { idle: 2.0, ..brief(arrival, wait, 1) };
    bay(&[car(0, 0), car(1, 100)])
}

/// All bytes of the worked bay's charger and of the two cars' around their moments.
fn bays(record: &mut Record) {
    let one = bay(&[Car::default()]).bytes();
    for rounds in [0, 100, 101, 1_899, 1_900, 2_019, 2_020, 2_021, 10_000_000] {
        record.play(&one, &[Rounds(rounds)].into_iter().chain(image(0)).collect::<Vec<_>>());
    }
    let two = two_cars().bytes();
    for rounds in 0..8 {
        let script = [Write(2, 2), Rounds(rounds), Line(0)];
        record.play(&two, &script.into_iter().chain(image(0)).collect::<Vec<_>>());
    }
}

/// Every byte of one bit and its complement in pending and enable, and each clearing before and after the rounds of the events.
fn bits(record: &mut Record) {
    let plan = two_cars().bytes();
    for bit in 0..8 {
        for byte in [1 << bit, !(1 << bit)] {
            record.play(&plan, &[Rounds(3), Write(1, byte), Write(2, byte), Read(1), Read(2), Line(0)]);
        }
    }
    for byte in [1, 2, 0, 3] {
        record.play(&plan, &[Write(2, 3 - byte), Read(2), Write(2, byte), Read(2), Write(2, 0xfc | byte), Read(2)]);
    }
    for cleared in 0..7 {
        let mut script = vec![Write(2, 3), Rounds(cleared)];
        script.extend([Write(1, [3, 1, 2][cleared as usize % 3]), Read(1), Line(0)]);
        script.extend((cleared..7).flat_map(|_| [Rounds(1), Read(1)]));
        record.play(&plan, &script);
    }
}

/// Addresses in and past the images, and lines.
fn addresses(record: &mut Record) {
    let mut site = two_cars();
    site.chargers.push(charger(2, &[1], 50.0, 1_200.0, 400.0));
    let plan = site.bytes();
    for from in [0, 8, 16, 24, 32, 40, 250, 65_536, 1 << 31, u32::MAX - 7] {
        let script = (from..=from + 7).flat_map(|at| [Read(at), Write(at, 0xff), Line(at)]);
        record.play(&plan, &[Rounds(3)].into_iter().chain(script).chain([Read(1), Read(2)]).collect::<Vec<_>>());
    }
    site.chargers.clear();
    record.play(&site.bytes(), &[Rounds(3), Read(0), Write(1, 1), Write(0, 0), Line(0), Rounds(100)]);
}

/// Outputs of every length up to more than the script takes, and bits where none is looked at.
fn outputs(record: &mut Record) {
    let plan = two_cars().bytes();
    let operations = [Rounds(3), Read(1), Write(99, 1), Line(0), Write(3, 1)];
    let script: Vec<u64> = operations.iter().map(|operation| operation.number(u64::MAX)).collect();
    for room in (0..=13).chain([OUT - 1, OUT]) {
        record.add(&plan, &script, room, 0);
    }
    for room in [0, 1, 2, 77] {
        record.add(&plan, &[], room, 0);
    }
}

/// Rounds that add up to 10,000,000, to more, and to sums of more than 32 bits.
fn sums(record: &mut Record) {
    let plan = two_cars().bytes();
    let most = 10_000_000;
    let mut asked = |rounds: &[u32], room: usize, number| {
        let script: Vec<u64> = rounds.iter().map(|count| Rounds(*count).number(0)).chain([Read(1).number(0)]).collect();
        record.add(&plan, &script, room, number);
    };
    asked(&[most], 4, 0);
    asked(&[1, 0, most - 1], 8, 0);
    asked(&[most, u32::MAX], 3, 0);
    for rounds in [&[most + 1][..], &[1, most], &[u32::MAX], &[u32::MAX, 1], &[u32::MAX, 7], &[1 << 31, 1 << 31]] {
        asked(rounds, 20, 2);
    }
    asked(&[9_988_297; 430], OUT, 2);
}

/// Cars under even shares beside a parked one, cars of fleets, an id of four bytes, a car that comes late, and a day with no car.
fn other_sites(record: &mut Record) {
    let even = shared(1.0).bytes();
    for (rounds, charger) in [(1, 3), (2, 0), (2, 1), (2, 2), (60, 1)] {
        record.play(&even, &[Rounds(rounds)].into_iter().chain(image(charger)).collect::<Vec<_>>());
    }
    let lane = lane().bytes();
    for rounds in [1, 100, 101, 102, 200, 203] {
        record.play(&lane, &[Rounds(rounds), Read(0), Read(1), Read(4), Write(1, 3), Rounds(1), Read(1), Read(4)]);
    }
    let mut scaled = bay(&[Car::default(), Car::default()]);
    scaled.vehicles[0] = Car { id: 0xfedc_ba98, idle: 0.5, ..Car::default() }.block();
    scaled.profiles[0] = profile(1, 1.0, &[(0.0, 40.0), (1.0, 10.0)]);
    scaled.chargers.push(charger(2, &[], 22.0, 32.0, 230.0));
    scaled.set_limit(11.0);
    for rounds in [101, 150, 200, 400] {
        let script = [Rounds(rounds)].into_iter().chain(image(0)).chain(image(1));
        record.play(&scaled.bytes(), &script.collect::<Vec<_>>());
    }
    let late = bay(&[brief(70_000, 0, 0)]).bytes();
    for rounds in [65_536, 70_000, 70_001, 70_002] {
        record.play(&late, &[Rounds(rounds), Read(0), Read(1), Read(4), Rounds(4_465), Read(1)]);
    }
    record.play(&bay(&[]).bytes(), &[Rounds(5), Write(2, 0xfe), Read(2), Read(1), Line(0)]);
}

/// Small plans of every shape, with scripts of all kinds of operations.
fn drawn(record: &mut Record, draw: &mut Draw) {
    let mut plans = 0;
    while plans < 30 {
        let (name, _, _) = draw.pick(&generate::SHAPES);
        let plan = generate::shaped(name, draw).plan;
        if check(&plan)[0] > 0 || plan.len() > 7 * BLOCK {
            continue;
        }
        for _ in 0..2 {
            let operations = draw.among(8, 40) as usize;
            let script: Vec<u64> = (0..operations).map(|_| any_operation(draw).number(draw.number())).collect();
            record.add(&plan, &script, 2 * operations + draw.pick(&[0, 0, 1, 5]), 0);
        }
        plans += 1;
    }
}

/// Of two chargers mostly.
fn any_operation(draw: &mut Draw) -> Operation {
    let address = draw.pick(&[0, 16]) + draw.pick(&[0, 1, 1, 2, 2, 4, 8, 13, 14, 15]);
    let byte = draw.number() as u8;
    match draw.below(8) {
        0..=2 => Rounds(draw.pick(&[0, 1, 1, 2, 5, 17, 60, 200])),
        3 | 4 => Read(address),
        5 | 6 => Write(address, draw.pick(&[1, 2, 3, byte])),
        _ => Line(draw.below(3) as u32),
    }
}

/// Plans that are refused by 4 to 12, also with too many rounds.
fn refused_plans(record: &mut Record, draw: &mut Draw) {
    let plan = one_vehicle(draw, &two_cars().bytes());
    let script = [Rounds(2), Read(1), Rounds(9_999_999)].map(|operation| operation.number(0));
    for number in 4..=12 {
        let refused = refused_by(draw, &plan, number);
        for (room, expected) in [(4, number), (0, number), (6, 2)] {
            record.add(&refused, &script, room, expected);
        }
    }
    record.add(&[], &[], 0, 4);
}

/// A largest site: the bytes of its last charger, and every status.
fn largest(record: &mut Record, draw: &mut Draw) {
    let mut site = loop {
        let plan = generate::shaped("largest", draw).plan;
        if check(&plan)[0] == 0 {
            break Draft::of(&plan).expect("an accepted plan");
        }
    };
    site.profiles.truncate(1);
    site.vehicles.clear();
    let id = u32_at(&site.profiles[0], 0);
    for car in 0..32 {
        site.vehicles.push(Car { id: car, profile: id, idle: 1_000.0, ..brief(0, 0, 0) }.block());
    }
    let statuses = (0..32).map(|charger| Read(16 * charger));
    let script =
        [Rounds(1)].into_iter().chain(statuses).chain(image(31)).chain([Read(511), Read(512), Line(31), Line(32)]);
    record.play(&site.bytes(), &script.collect::<Vec<_>>());
}

/// The record's output, as the replaying program comes to it.
fn replayed(input: &[u8]) -> Vec<u8> {
    let mut reader = Reader(input);
    let mut buffers = Buffers::default();
    (0..reader.number(4))
        .flat_map(|_| {
            let [operations, room, plan] = [0; 3].map(|_| reader.number(4));
            reader.change(&mut buffers.plan);
            for operation in 0..operations {
                buffers.script[operation] = reader.number(8) as u64;
            }
            buffers.answer(operations, room, plan).1
        })
        .collect()
}
