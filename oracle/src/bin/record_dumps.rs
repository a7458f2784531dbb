//! Records the oracle's answers of dump, continue and late booking for a replay without Rust. The README describes the form.
use oracle::Numbers;
use oracle::bay::{bay, brief, lane};
use oracle::blocks::{BLOCK, put, reseal, seal, u32_at};
use oracle::book::LEAST_BOOK;
use oracle::draft::{Car, Draft, profile};
use oracle::draw::Draw;
use oracle::dump::{LEAST_DUMP, events, length};
use oracle::generate;
use oracle::recording::{Reader, digest, folder_and_seed, keep, record_changes};

/// The replaying program's buffers of plan, dump, book, car and new dump, all zero at first and never cleared.
const PLAN: usize = 65_536;
const DUMP: usize = 16_640;
const BOOK: usize = 7_680;
const CAR: usize = 1_024;
/// It reads so many bytes of the record.
const RECORD: usize = 65_536;

const MOST: u32 = 10_000_000;

fn main() {
    let (folder, seed) = folder_and_seed("record_dumps FOLDER [SEED]");
    let mut record = Record::default();
    bays(&mut record);
    drawn(&mut record, &mut Draw::new(seed, 0));
    refusals(&mut record);
    late_bookings(&mut record);
    late_ties(&mut record);
    late_drawn(&mut record, &mut Draw::new(seed, 1));
    late_refusals(&mut record);
    late_refusals_in_order(&mut record);
    fleets(&mut record);
    let input = [&record.cases.to_le_bytes()[..], &record.input].concat();
    assert!(replayed(&input) == record.output, "the record reads back");
    assert!(input.len() < RECORD, "the record fits");
    keep(&folder, record.cases as usize, &input, &record.output);
}

struct Buffers {
    plan: Vec<u8>,
    dump: Vec<u8>,
    book: Vec<u8>,
    car: Vec<u8>,
    new_dump: Vec<u8>,
}

impl Default for Buffers {
    fn default() -> Self {
        let [plan, dump, book, car, new_dump] = [PLAN, DUMP, BOOK, CAR, DUMP].map(|len| vec![0; len]);
        Self { plan, dump, book, car, new_dump }
    }
}

/// A call: its kind (0 dump, 1 continue, 2 late booking), its numbers, and the lengths of the book and of the dump.
#[derive(Clone, Copy)]
struct Call {
    kind: u8,
    /// Of a late booking the length of the car.
    engine: u32,
    units: u32,
    /// Of a late booking the length of the new dump's buffer.
    book: usize,
    dump: usize,
}

const DUMPED: Call = Call { kind: 0, engine: 0, units: MOST, book: LEAST_BOOK, dump: LEAST_DUMP };
const CONTINUED: Call = Call { kind: 1, ..DUMPED };
const BOOKED: Call = Call { kind: 2, engine: BLOCK as u32, units: 0, book: LEAST_DUMP, dump: LEAST_DUMP };

impl Buffers {
    /// Makes the call. Gives what the replaying program writes: the numbers, and the digests of book, dump and new dump.
    fn answer(&mut self, call: Call, plan: usize) -> (Numbers, Vec<u8>) {
        let Self { dump, book, car, new_dump, .. } = self;
        let plan = &self.plan[..plan];
        let dump = &mut dump[..call.dump];
        let numbers = match call.kind {
            0 => oracle::dump(plan, call.engine, call.units, &mut book[..call.book], dump),
            1 => oracle::resume(plan, dump, call.units, &mut book[..call.book]),
            _ => oracle::book_late(plan, dump, &car[..call.engine as usize], &mut new_dump[..call.book]),
        };
        let digests = [&self.book, &self.dump, &self.new_dump];
        let digests = digests.map(|bytes| digest(bytes.iter().map(|byte| u64::from(*byte))));
        let words = numbers.into_iter().chain(digests);
        (numbers, words.flat_map(u64::to_le_bytes).collect())
    }
}

#[derive(Default)]
struct Record {
    buffers: Buffers,
    cases: u32,
    input: Vec<u8>,
    output: Vec<u8>,
}

impl Record {
    /// Records the call; these bytes stand at the front of the buffers of dump and car before it. Gives its number.
    fn add(&mut self, call: Call, plan: &[u8], dump: &[u8], car: &[u8]) -> u64 {
        self.cases += 1;
        self.input.push(call.kind);
        for field in [call.engine, call.units, call.book as u32, call.dump as u32, plan.len() as u32] {
            self.input.extend(field.to_le_bytes());
        }
        record_changes(&mut self.input, &mut self.buffers.plan, plan);
        record_changes(&mut self.input, &mut self.buffers.dump, dump);
        record_changes(&mut self.input, &mut self.buffers.car, car);
        let (numbers, answer) = self.buffers.answer(call, plan.len());
        self.output.extend(answer);
        numbers[0]
    }

    fn plain(&mut self, plan: &[u8], call: Call) -> u64 {
        self.add(call, plan, &[], &[])
    }

    /// The dump after so many events, and each run from there by further events. After an odd number all bytes are lent.
    fn cut(&mut self, plan: &[u8], units: u32, furthers: &[u32]) {
        let [book, room] = if units % 2 == 1 { [BOOK, DUMP] } else { [LEAST_BOOK, LEAST_DUMP] };
        assert_eq!(self.plain(plan, Call { units, book, dump: room, ..DUMPED }), 0);
        let dump = if units % 2 == 1 { DUMP } else { length(&self.buffers.dump) };
        for further in furthers {
            assert_eq!(self.plain(plan, Call { units: *further, book, dump, ..CONTINUED }), 0);
        }
    }

    /// A continued run from changed bytes.
    fn changed(&mut self, plan: &[u8], dump: &[u8], number: u64) {
        let call = Call { units: 1, dump: dump.len(), ..CONTINUED };
        assert_eq!(self.add(call, plan, dump, &[]), number);
    }

    /// A late booking with the dump that stands in its buffer, all of it lent.
    fn booked(&mut self, plan: &[u8], car: &[u8], number: u64) {
        let call = Call { engine: car.len() as u32, dump: DUMP, ..BOOKED };
        assert_eq!(self.add(call, plan, &[], car), number);
    }

    /// A late booking after so many events, and the run that goes on with the car to its end.
    fn late(&mut self, plan: &[u8], units: u32, car: &Car) {
        self.cut(plan, units, &[]);
        self.booked(plan, &car.behind(plan), 0);
        let new_dump = self.buffers.new_dump[..length(&self.buffers.new_dump)].to_vec();
        let mut longer = Draft::of(plan).unwrap();
        longer.vehicles.push(car.block());
        let call = Call { dump: new_dump.len(), ..CONTINUED };
        assert_eq!(self.add(call, &longer.bytes(), &new_dump, &[]), 0);
    }
}

/// Every cut of the worked bay with one car and with two, and two cuts of 64 cars.
fn bays(record: &mut Record) {
    let one = bay(&[Car::default()]).bytes();
    for units in 0..4 {
        record.cut(&one, units, &[0, 1, MOST]);
    }
    let two = bay(&[Car::default(), Car { arrival: 200, wait: 1_821, ..Car::default() }]).bytes();
    for units in 0..7 {
        record.cut(&two, units, &[1, 2]);
    }
    let many = bay(&vec![Car { idle: 100.0, ..brief(0, 5, 60) }; 64]).bytes();
    record.cut(&many, 0, &[64]);
    record.cut(&many, 70, &[MOST]);
}

/// Small plans in which much happens in one second.
fn drawn(record: &mut Record, draw: &mut Draw) {
    let mut plans = 0;
    while plans < 8 {
        let plan = generate::shaped(draw.pick(&["ties at one second", "contention"]), draw).plan;
        let mut book = vec![0; LEAST_BOOK];
        let numbers = oracle::run(&plan, 0, MOST, &mut book);
        if plan.len() <= 10 * BLOCK && numbers[0] == 0 && numbers[3] > 8 {
            record.cut(&plan, draw.below(numbers[3]) as u32, &[draw.among(0, 5) as u32, MOST]);
            plans += 1;
        }
    }
}

/// Refusals 1, 2, 3, 13, 14, and of the plan 5, 7 and 12.
fn refusals(record: &mut Record) {
    let plan = bay(&[Car::default()]).bytes();
    for engine in [1, 2, 256] {
        assert_eq!(record.plain(&plan, Call { engine, ..DUMPED }), 1);
    }
    for call in [DUMPED, CONTINUED] {
        assert_eq!(record.plain(&plan, Call { units: MOST + 1, ..call }), 2);
        assert_eq!(record.plain(&plan, Call { book: LEAST_BOOK - 1, ..call }), 3);
        for (faulty, number) in faulty_plans() {
            assert_eq!(record.plain(&faulty, call), number);
        }
    }
    for dump in [0, LEAST_DUMP - 1] {
        assert_eq!(record.plain(&plan, Call { dump, ..DUMPED }), 13);
    }
    record.cut(&plan, 1, &[]);
    let dump = record.buffers.dump[..length(&record.buffers.dump)].to_vec();
    for len in [0, 23, 24, BLOCK, dump.len() - 1] {
        record.changed(&plan, &dump[..len], 14);
    }
    for at in [0, 4, 12, 16, 152, 300, 508, BLOCK + 9, 2 * BLOCK + 95] {
        let mut wrong = dump.clone();
        wrong[at] ^= 1;
        record.changed(&plan, &wrong, 14);
        reseal(&mut wrong, at / BLOCK);
        record.changed(&plan, &wrong, if at == 508 { 0 } else { 14 });
    }
    for count in [0, 2, 4, (1 << 32) + 1, 1 << 63, u64::MAX] {
        let mut wrong = dump.clone();
        put(&mut wrong, 16, &count.to_le_bytes());
        reseal(&mut wrong, 0);
        record.changed(&plan, &wrong, 14);
    }
    record.changed(&plan, &[&dump[..], &[0xa5; 700]].concat(), 0);
}

fn faulty_plans() -> [(Vec<u8>, u64); 3] {
    let good = bay(&[Car { start: 0.0, target: 1.0, ..Car::default() }]);
    let [mut check, mut field, mut pair] = [good.clone(), good.clone(), good];
    check.vehicles[0][508] = 1;
    field.chargers[0][507] = 1;
    pair.profiles[0] = profile(1, 1_024.0, &[(0.5, 1.0)]);
    [(check.bytes(), 5), (field.bytes(), 7), (pair.bytes(), 12)]
}

/// A car that arrives at this second; the bays' own cars have the ids from 1.
fn late_car(arrival: u64) -> Car {
    Car { id: 100, arrival, ..Car::default() }
}

/// A car at every cut of the worked bay, one for an empty bay, and the last of 64.
fn late_bookings(record: &mut Record) {
    let one = bay(&[Car::default()]).bytes();
    for (units, arrival) in [(0, 0), (1, 101), (2, 1_901), (3, 2_021)] {
        record.late(&one, units, &late_car(arrival));
    }
    record.late(&one, 1, &Car { wait: 1_821, ..late_car(200) });
    record.late(&bay(&[]).bytes(), 0, &late_car(0));
    let many = bay(&vec![Car { idle: 100.0, ..brief(0, 5, 60) }; 63]).bytes();
    record.late(&many, 70, &late_car(1_000_000));
    record.late(&many, 0, &Car { wait: 5, queue_limit: 0, ..late_car(0) });
}

/// Its arrival and its renege in the seconds of an unplug, of an arrival and of reneges.
fn late_ties(record: &mut Record) {
    let long = Car { idle: 10.0, ..brief(0, 10, 10) };
    let plan = bay(&[long, brief(10, 0, 10), brief(15, 5, 0)]).bytes();
    for (arrival, wait) in [(10, 0), (10, 5), (5, 5), (5, 10), (15, 5), (20, 0)] {
        record.late(&plan, 1, &Car { wait, queue_limit: 1, ..late_car(arrival) });
    }
}

/// Small plans in which much happens in one second, and a car that arrives in the second of a pending event.
fn late_drawn(record: &mut Record, draw: &mut Draw) {
    let mut plans = 0;
    while plans < 6 {
        let plan = generate::shaped(draw.pick(&["ties at one second", "stays of no length"]), draw).plan;
        if plan.len() > 10 * BLOCK || oracle::check(&plan)[0] != 0 {
            continue;
        }
        let units = draw.among(1, 6) as u32;
        let [before, dump] = [units - 1, units].map(|units| dumped(&plan, units));
        let (Some(last), pending) = (events(&before).first().map(|event| event.time), events(&dump)) else { continue };
        let Some(tie) = pending.iter().find(|event| event.time > last) else { continue };
        let profile = u32_at(&Draft::of(&plan).unwrap().profiles[0], 0);
        let wait = pending.last().unwrap().time - tie.time;
        record.late(&plan, units, &Car { id: 1_000_000, profile, ..brief(tie.time, wait, 1) });
        plans += 1;
    }
}

fn dumped(plan: &[u8], units: u32) -> Vec<u8> {
    let (mut book, mut dump) = (vec![0; LEAST_BOOK], vec![0; LEAST_DUMP]);
    assert_eq!(oracle::dump(plan, 0, units, &mut book, &mut dump)[0], 0);
    dump.truncate(length(&dump));
    dump
}

/// Refusals 13, 4, 14, 17 and 18, of the plan 5, 7 and 12, and of the longer plan 5, 7, 10, 11 and 12.
fn late_refusals(record: &mut Record) {
    let plan = bay(&[Car::default()]).bytes();
    let good = late_car(101).behind(&plan);
    record.cut(&plan, 1, &[]);
    let dump = dumped(&plan, 1);
    assert_eq!(record.add(Call { book: DUMP, ..BOOKED }, &plan, &[], &good), 0);
    for room in [0, LEAST_DUMP - 1] {
        assert_eq!(record.add(Call { book: room, ..BOOKED }, &plan, &[], &good), 13);
    }
    for len in [0, BLOCK - 1, BLOCK + 1, 2 * BLOCK] {
        record.booked(&plan, &good.repeat(2)[..len], 4);
    }
    for len in [0, BLOCK - 1, plan.len() + 1] {
        let mut other = plan.clone();
        other.resize(len, 0);
        record.booked(&other, &good, 4);
    }
    for (faulty, number) in faulty_plans() {
        record.booked(&faulty, &good, number);
    }
    for len in [0, 24, dump.len() - 1] {
        let call = Call { dump: len, ..BOOKED };
        assert_eq!(record.add(call, &plan, &dump[..len], &good), 14);
    }
    let mut wrong = dump.clone();
    put(&mut wrong, 16, &2u64.to_le_bytes());
    reseal(&mut wrong, 0);
    assert_eq!(record.add(BOOKED, &plan, &wrong, &good), 14);
    assert_eq!(record.add(BOOKED, &plan, &dump, &good), 0);
    for arrival in [0, 99, 100] {
        record.booked(&plan, &late_car(arrival).behind(&plan), 18);
    }
    for place in [4, 6] {
        let mut car = late_car(101).block();
        seal(&mut car, place);
        record.booked(&plan, &car, 5);
    }
    for arrival in [1_000_001, (1 << 32) + 100, u64::MAX] {
        record.booked(&plan, &late_car(arrival).behind(&plan), 7);
    }
    record.booked(&plan, &Car { id: 1, ..late_car(101) }.behind(&plan), 10);
    record.booked(&plan, &Car { profile: 2, ..late_car(101) }.behind(&plan), 11);
    let mut slow = bay(&[Car::default()]);
    slow.profiles.push(profile(2, 168.0_f64.next_up(), &[(0.5, 1.0)]));
    let slow = slow.bytes();
    record.cut(&slow, 1, &[]);
    record.booked(&slow, &Car { profile: 2, start: 0.0, target: 1.0, ..late_car(101) }.behind(&slow), 12);
    let full = bay(&vec![brief(0, 5, 60); 64]).bytes();
    record.cut(&full, 1, &[]);
    record.booked(&full, &late_car(101).behind(&full), 17);
}

/// Several things wrong at once: the first of them is answered.
fn late_refusals_in_order(record: &mut Record) {
    let full = bay(&vec![brief(0, 5, 60); 64]).bytes();
    let early = [0; BLOCK];
    record.cut(&full, 1, &[]);
    record.booked(&full, &early, 17);
    let mut none = dumped(&full, 1);
    none[0] = 0;
    assert_eq!(record.add(BOOKED, &full, &none, &early), 14);
    let plan = bay(&[Car::default()]).bytes();
    assert_eq!(record.add(BOOKED, &plan, &none, &early), 14);
    record.cut(&plan, 1, &[]);
    record.booked(&plan, &early, 18);
    record.cut(&plan, 0, &[]);
    record.booked(&plan, &early, 5);
    for (faulty, number) in faulty_plans() {
        record.booked(&faulty, &early[1..], 4);
        record.booked(&faulty, &early, number);
        assert_eq!(record.add(Call { book: LEAST_DUMP - 1, ..BOOKED }, &faulty, &none, &early), 13);
    }
    assert_eq!(record.add(Call { engine: 0, book: 0, dump: 0, ..BOOKED }, &[], &[], &[]), 13);
    assert_eq!(record.add(Call { engine: 0, dump: 0, ..BOOKED }, &[], &[], &[]), 4);
}

/// Cuts of a lane of fleets, each continued, with its dump's sessions in another fleet, and cars of fleets booked late.
fn fleets(record: &mut Record) {
    let plan = lane().bytes();
    for units in [2, 5, 9, 14] {
        record.cut(&plan, units, &[1, MOST]);
    }
    let dump = dumped(&plan, 5);
    let sessions = length(&dump) - BLOCK;
    for (at, byte) in [(sessions + 14, 1), (sessions + 15, 1), (sessions + 96 + 14, 2)] {
        let mut wrong = dump.clone();
        wrong[at] = byte;
        reseal(&mut wrong, at / BLOCK);
        record.changed(&plan, &wrong, 14);
    }
    for (fleet, arrival) in [(1, 21), (2, 21), (0, 21), (1, 100), (3, 62), (64, 101)] {
        record.late(&plan, 3, &Car { fleet, ..late_car(arrival) });
    }
    record.cut(&plan, 3, &[]);
    for fleet in [65, 255, 256, u16::MAX] {
        record.booked(&plan, &Car { fleet, ..late_car(21) }.behind(&plan), 7);
    }
}

/// The record's output, as the replaying program comes to it.
fn replayed(input: &[u8]) -> Vec<u8> {
    let mut reader = Reader(input);
    let mut buffers = Buffers::default();
    (0..reader.number(4))
        .flat_map(|_| {
            let kind = reader.number(1) as u8;
            let [engine, units, book, dump, plan] = [0; 5].map(|_| reader.number(4));
            reader.change(&mut buffers.plan);
            reader.change(&mut buffers.dump);
            reader.change(&mut buffers.car);
            let call = Call { kind, engine: engine as u32, units: units as u32, book, dump };
            buffers.answer(call, plan).1
        })
        .collect()
}
