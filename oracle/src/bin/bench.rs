//! Times the original and the product on the same inputs, by call, in one process.
use oracle::arguments::{Words, stop};
use oracle::bay::{bay, brief};
use oracle::blocks::{BLOCK, Block, put, seal, u32_at};
use oracle::book::LEAST_BOOK;
use oracle::draft::{Car, Draft, charger, profile};
use oracle::draw::Draw;
use oracle::dump::LEAST_DUMP;
use oracle::panels::Operation::{self, Read, Rounds};
use oracle::share_lists::most_passes;
use oracle::sides::{
    OTHER, other_book_late, other_check, other_dump, other_panel, other_practice, other_read_book, other_resume,
    other_run,
};
use oracle::{Header, LEAST_DAY, Numbers, Sessions, generate, program};
use original::shares::kilowatts;
use std::hint::black_box;
use std::mem::discriminant;

const REPETITIONS: usize = 15;
/// Calls are repeated within one measurement until it takes about this long, in nanoseconds.
const MEASUREMENT: f64 = 10e6;

struct Work {
    name: String,
    plan: Vec<u8>,
    call: Call,
    /// What the time is divided by: rounds, or one call.
    per: Per,
}

enum Call {
    Check,
    /// By an engine under an allowance.
    Run(u32, u32),
    /// By events under an allowance.
    Dump(u32),
    /// From the dump after so many events to the end.
    Continue(u32),
    /// With the dump after so many events.
    BookLate(u32),
    /// The book of the run by events.
    ReadBook,
    /// Of so many cars.
    Practice(u32),
    /// So many rounds one by one, each with a read.
    RoundByRound(u32),
    /// So many rounds at once, and then five reads.
    AtOnce(u32),
}

#[derive(Clone, Copy)]
enum Per {
    Round,
    Call,
}

struct Side {
    check: fn(&[u8]) -> Numbers,
    run: fn(&[u8], u32, u32, &mut [u8]) -> Numbers,
    dump: fn(&[u8], u32, u32, &mut [u8], &mut [u8]) -> Numbers,
    resume: fn(&[u8], &[u8], u32, &mut [u8]) -> Numbers,
    book_late: fn(&[u8], &[u8], &[u8], &mut [u8]) -> Numbers,
    read_book: fn(&[u8], &mut Header, &mut Sessions) -> Numbers,
    practice: fn(&[u8], u32, u32, &mut [u8]) -> Numbers,
    panel: fn(&[u8], &[u64], &mut [u8]) -> Numbers,
}

const SIDES: [Side; 2] = [
    Side {
        check: oracle::check,
        run: oracle::run,
        dump: oracle::dump,
        resume: oracle::resume,
        book_late: oracle::book_late,
        read_book: oracle::read_book,
        practice: oracle::practice,
        panel: oracle::panel,
    },
    Side {
        check: other_check,
        run: other_run,
        dump: other_dump,
        resume: other_resume,
        book_late: other_book_late,
        read_book: other_read_book,
        practice: other_practice,
        panel: other_panel,
    },
];
const MOST: u32 = 10_000_000;
/// Of the rows that say a round's time.
const ROUNDS: u32 = 100_000;

fn main() {
    let part = part_of_a_name();
    let works: Vec<Work> = works().into_iter().filter(|work| work.name.contains(&part)).collect();
    if works.is_empty() {
        stop(format!("no row's name has \"{part}\" in it; without a word all rows are timed"));
    }
    println!(
        "The original and {OTHER}: medians of {REPETITIONS} measurements each, in turn; the ratio is the median of the pairs' ratios. Times are processor time. Buffers are not cleared.\n"
    );
    println!("| work | original | other | other / original |");
    println!("|---|---|---|---|");
    for work in works {
        println!("{}", row(&work.name, [(&SIDES[0], &work), (&SIDES[1], &work)]));
    }
    by_the_other(&part, "The limit scaled and shared evenly", ["scaled", "shared evenly"], by_mode());
    by_the_other(&part, "Runs by steps, and scripts of as many rounds", ["run", "script"], by_script());
}

/// A table of pairs whose second name has the words given, both by the other side.
fn by_the_other(part: &str, what: &str, [first, second]: [&str; 2], mut pairs: Vec<[Work; 2]>) {
    pairs.retain(|[_, work]| work.name.contains(part));
    if !pairs.is_empty() {
        println!("\n{what}, both by {OTHER}:\n");
        println!("| work | {first} | {second} | {second} / {first} |");
        println!("|---|---|---|---|");
    }
    for [one, other] in &pairs {
        println!("{}", row(&one.name, [(&SIDES[1], one), (&SIDES[1], other)]));
    }
}

fn part_of_a_name() -> String {
    let mut words = Words::of("bench [PART-OF-A-ROWS-NAME]");
    let part = words.word().unwrap_or_default();
    words.end();
    part
}

fn row(name: &str, pair: [(&Side, &Work); 2]) -> String {
    let times = measure(pair);
    let ratios = times[1].iter().zip(&times[0]).map(|(second, first)| second / first).collect();
    let [first, second] = times.map(median).map(|time| shown(pair[0].1, time));
    format!("| {name} | {first} | {second} | {:.2} |", median(ratios))
}

fn shown(work: &Work, nanoseconds: f64) -> String {
    match work.per {
        Per::Round => format!("{nanoseconds:.1} ns a round"),
        Per::Call => format!("{:.2} µs", nanoseconds / 1_000.0),
    }
}

/// What is lent to a call beside its plan.
struct Lent {
    book: Vec<u8>,
    dump: Vec<u8>,
    car: Block,
    new_dump: Vec<u8>,
    header: Header,
    sessions: Sessions,
    day: Vec<u8>,
    script: Vec<u64>,
    answers: Vec<u8>,
}

impl Lent {
    fn to(work: &Work) -> Self {
        let (mut book, mut dump) = (vec![0; LEAST_BOOK], vec![0; LEAST_DUMP]);
        match work.call {
            Call::Continue(handled) | Call::BookLate(handled) => {
                oracle::dump(&work.plan, 0, handled, &mut book, &mut dump);
            }
            Call::ReadBook => book = program::output(&program::input(0, MOST, &work.plan)).0,
            _ => {}
        }
        let (new_dump, day) = (vec![0; LEAST_DUMP], vec![0; LEAST_DAY]);
        let script = script(&work.call);
        let answers = vec![0; 2 * script.len()];
        let (header, sessions) = ([0; 4], [0; 1024]);
        Self { book, dump, car: late_car(&work.plan), new_dump, header, sessions, day, script, answers }
    }

    fn call(&mut self, side: &Side, work: &Work) -> Numbers {
        let (plan, book) = (black_box(&work.plan), black_box(&mut self.book));
        match work.call {
            Call::Check => (side.check)(plan),
            Call::Run(engine, allowance) => (side.run)(plan, engine, allowance, book),
            Call::Dump(allowance) => (side.dump)(plan, 0, allowance, book, black_box(&mut self.dump)),
            Call::Continue(_) => (side.resume)(plan, black_box(&self.dump), MOST, book),
            Call::BookLate(_) => {
                let (dump, car) = (black_box(&self.dump), black_box(&self.car));
                (side.book_late)(plan, dump, car, black_box(&mut self.new_dump))
            }
            Call::ReadBook => (side.read_book)(book, black_box(&mut self.header), black_box(&mut self.sessions)),
            Call::Practice(count) => (side.practice)(plan, 1, count, black_box(&mut self.day)),
            Call::RoundByRound(_) | Call::AtOnce(_) => {
                (side.panel)(plan, black_box(&self.script), black_box(&mut self.answers))
            }
        }
    }
}

/// Nanoseconds of each repetition, the two in alternating order.
fn measure(pair: [(&Side, &Work); 2]) -> [Vec<f64>; 2] {
    let mut lent = pair.map(|(_, work)| Lent::to(work));
    let mut call = |k: usize| lent[k].call(pair[k].0, pair[k].1);
    let answers = [0, 1].map(&mut call);
    let name = &pair[0].1.name;
    assert_eq!(answers.map(|numbers| numbers[0]), [0; 2], "{name} is refused");
    let units = [0, 1].map(|k| units(pair[k].1, &answers[k]));
    assert_eq!(units[0], units[1], "{name}");
    // A script's numbers are not a run's.
    let [first, second] = pair.map(|(_, work)| discriminant(&work.call));
    assert!(first != second || answers[0] == answers[1], "{name}");
    let calls = [0, 1].map(|k| {
        let started = thread_time();
        call(k);
        (MEASUREMENT / (thread_time() - started)).clamp(1.0, 100_000.0) as u32
    });
    let mut times = [Vec::new(), Vec::new()];
    for repetition in 0..REPETITIONS {
        for turn in 0..2 {
            let k = (repetition + turn) % 2;
            let started = thread_time();
            for _ in 0..calls[k] {
                black_box(call(k));
            }
            times[k].push((thread_time() - started) / f64::from(calls[k]) / units[k]);
        }
    }
    times
}

fn units(work: &Work, numbers: &Numbers) -> f64 {
    match (&work.per, &work.call) {
        (Per::Call, _) => 1.0,
        (Per::Round, Call::RoundByRound(rounds)) => f64::from(*rounds),
        (Per::Round, _) => numbers[3] as f64,
    }
}

/// The script of a call that has one.
fn script(call: &Call) -> Vec<u64> {
    let operations: Vec<Operation> = match *call {
        Call::RoundByRound(rounds) => (0..rounds).flat_map(|k| [Rounds(1), Read(k % 16)]).collect(),
        Call::AtOnce(rounds) => [Rounds(rounds)].into_iter().chain((0..5).map(Read)).collect(),
        _ => Vec::new(),
    };
    operations.iter().map(|operation| operation.number(0)).collect()
}

#[repr(C)]
struct Timespec {
    seconds: i64,
    nanoseconds: i64,
}

unsafe extern "C" {
    fn clock_gettime(clock: i32, time: *mut Timespec) -> i32;
}

/// Nanoseconds of processor time that this thread has used, so that other work on the machine counts less.
fn thread_time() -> f64 {
    const CLOCK_THREAD_CPUTIME_ID: i32 = 3;
    let mut time = Timespec { seconds: 0, nanoseconds: 0 };
    // SAFETY: the pointer is to a timespec of this platform (x86-64 Linux, as the archive).
    unsafe { clock_gettime(CLOCK_THREAD_CPUTIME_ID, &mut time) };
    time.seconds as f64 * 1e9 + time.nanoseconds as f64
}

fn median(mut times: Vec<f64>) -> f64 {
    times.sort_by(f64::total_cmp);
    times[times.len() / 2]
}

fn works() -> Vec<Work> {
    let mut works = Vec::new();
    for chargers in [1, 4, 32] {
        for points in [1, 30] {
            for high in [false, true] {
                for limited in [false, true] {
                    works.push(rounds(chargers, points, high, limited));
                }
            }
        }
    }
    for work in by_mode().into_iter().flatten() {
        if works.iter().all(|known| known.name != work.name) {
            works.push(work);
        }
    }
    works.extend(by_script().into_iter().map(|[_, script]| script));
    works.push(parked(1));
    works.push(parked(4));
    works.push(day());
    works.push(sparse_day());
    works.push(far_apart());
    works.push(Work {
        name: "events: 64 vehicles, 32 chargers".into(),
        plan: busy_site(32),
        call: Call::Run(0, MOST),
        per: Per::Call,
    });
    works.push(Work {
        name: "events: 64 vehicles, 2 chargers".into(),
        plan: busy_site(2),
        call: Call::Run(0, MOST),
        per: Per::Call,
    });
    works.push(Work {
        name: "events: 64 vehicles of 4 fleets, 2 chargers".into(),
        plan: fleets(),
        call: Call::Run(0, MOST),
        per: Per::Call,
    });
    for (name, call) in [("dump after 80 events", Call::Dump(80)), ("continue after 80 events", Call::Continue(80))] {
        works.push(Work { name: format!("{name}: 64 vehicles, 2 chargers"), plan: busy_site(2), call, per: Per::Call });
    }
    for chargers in [2, 32] {
        let mut draft = site(chargers);
        draft.vehicles.truncate(63);
        works.push(Work {
            name: format!("late booking after 80 events: 63 vehicles, {chargers} chargers"),
            plan: draft.bytes(),
            call: Call::BookLate(80),
            per: Per::Call,
        });
    }
    for (sessions, plan) in [("64 sessions", busy_site(2)), ("one session", bay(&[Car::default()]).bytes())] {
        works.push(Work { name: format!("read a book of {sessions}"), plan, call: Call::ReadBook, per: Per::Call });
    }
    for (cars, count) in [("64 cars", 64), ("one car", 1)] {
        let (name, plan) = (format!("practice day of {cars}: one charger"), steady(1, 1, false, false));
        works.push(Work { name, plan, call: Call::Practice(count), per: Per::Call });
    }
    works.push(Work { name: "check of a largest plan".into(), plan: largest(), call: Call::Check, per: Per::Call });
    works.push(Work {
        name: "check of one vehicle and one charger".into(),
        plan: steady(1, 1, false, false),
        call: Call::Check,
        per: Per::Call,
    });
    works
}

/// Cars that all plug in at once and charge slowly for the whole allowance.
fn steady(chargers: u32, points: u32, high: bool, limited: bool) -> Vec<u8> {
    let mut draft = Draft::default();
    // Powers about 2 kW, so that 1,024 kWh move little in the allowance.
    let curve: Vec<(f64, f64)> = (0..points).map(|k| (f64::from(k) / 30.0, 2.0 + f64::from(k % 7) / 8.0)).collect();
    draft.profiles.push(profile(1, 1_024.0, &curve));
    if limited {
        draft.set_limit(1.5 * f64::from(chargers));
    }
    let (start, target) = if high { (0.9, 1.0) } else { (0.05, 0.15) };
    for k in 0..chargers {
        draft.chargers.push(charger(k, &[], 50.0, 1_200.0, 400.0));
        let car = Car { id: k, start, target, arrival: 0, wait: 1_000_000, ..Car::default() };
        draft.vehicles.push(car.block());
    }
    draft.bytes()
}

fn rounds(chargers: u32, points: u32, high: bool, limited: bool) -> Work {
    let name = format!(
        "steps: {chargers} busy, {points} point{}, {} SOC{}",
        if points == 1 { "" } else { "s" },
        if high { "high" } else { "low" },
        if limited { ", limit binds" } else { "" }
    );
    Work { name, plan: steady(chargers, points, high, limited), call: Call::Run(1, ROUNDS), per: Per::Round }
}

/// Plans whose limit is scaled to, each with the same plan whose limit is shared evenly.
fn by_mode() -> Vec<[Work; 2]> {
    let mut pairs = Vec::new();
    for chargers in [1, 4, 32] {
        for (limit, how) in [(1.5, "limit binds"), (3.0, "requests fit")] {
            let mut draft = Draft::of(&steady(chargers, 30, false, false)).unwrap();
            draft.set_limit(limit * f64::from(chargers));
            pairs.push(both_modes(format!("steps: {chargers} busy, 30 points, low SOC, {how}"), draft, 100_000));
        }
    }
    let mixed = rated(Draft::of(&steady(32, 30, false, false)).unwrap(), (0..32).map(|k| 700 + 40 * k), 38.4);
    pairs.push(both_modes("steps: 32 busy, 30 points, low SOC, limit binds, mixed requests".into(), mixed, 100_000));
    pairs.push(both_modes("steps: 32 busy, 1 point, limit binds, most passes".into(), stairs(), 3_000));
    pairs
}

/// Runs by steps, each with a script of as many rounds.
fn by_script() -> Vec<[Work; 2]> {
    let with_script = |run: Work, call, how: &str| {
        let script = Work { name: format!("{}, {how}", run.name), plan: run.plan.clone(), call, per: run.per };
        [run, script]
    };
    let mut pairs = Vec::new();
    for chargers in [1, 4, 32] {
        let run = rounds(chargers, 30, false, false);
        pairs.push(with_script(run, Call::RoundByRound(ROUNDS), "round by round with a read"));
    }
    for run in [day(), far_apart()] {
        pairs.push(with_script(run, Call::AtOnce(MOST), "at once and five reads"));
    }
    pairs
}

fn both_modes(name: String, scaled: Draft, allowance: u32) -> [Work; 2] {
    let mut even = scaled.clone();
    even.header[12] = 2;
    let work = |name, draft: Draft| Work { name, plan: draft.bytes(), call: Call::Run(1, allowance), per: Per::Round };
    [work(name.clone(), scaled), work(name + ", even shares", even)]
}

/// Chargers of so many watts each, below what the cars ask for.
fn rated(mut draft: Draft, watts: impl Iterator<Item = u64>, limit: f64) -> Draft {
    draft.chargers = (0..).zip(watts).map(|(k, watts)| charger(k, &[], kilowatts(watts), 4_096.0, 4_096.0)).collect();
    draft.set_limit(limit);
    draft
}

/// A car for each request that takes the product the most passes.
fn stairs() -> Draft {
    let (requests, limit) = most_passes();
    let mut draft = Draft::default();
    draft.profiles.push(profile(1, 1_024.0, &[(0.5, 1_024.0)]));
    for id in 0..requests.len() as u32 {
        draft.vehicles.push(Car { id, start: 0.0, target: 1.0, arrival: 0, ..Car::default() }.block());
    }
    rated(draft, requests.into_iter(), kilowatts(limit))
}

/// Cars that are parked from the second round on, under a limit that would bind if they counted.
fn parked(chargers: u32) -> Work {
    let mut draft = Draft::default();
    draft.profiles.push(profile(1, 50.0, &[(0.5, 50.0)]));
    draft.set_limit(25.0);
    for k in 0..chargers {
        draft.chargers.push(charger(k, &[], 50.0, 1_200.0, 400.0));
        draft.vehicles.push(Car { id: k, idle: 200_000.0, ..brief(0, 0, 0) }.block());
    }
    let name = format!("steps: {chargers} parked");
    Work { name, plan: draft.bytes(), call: Call::Run(1, 100_000), per: Per::Round }
}

/// Four chargers and twenty cars over a day, most of them in two rush hours.
fn day() -> Work {
    let mut draw = Draw::new(5, 0);
    let mut draft = Draft::default();
    draft.profiles.push(profile(1, 60.0, &sloped()));
    draft.set_limit(250.0);
    for k in 0..4 {
        draft.chargers.push(charger(k, &[], 100.0, 400.0, 400.0));
    }
    for id in 0..20 {
        let arrival = draw.pick(&[8 * 3_600, 17 * 3_600]) + draw.below(3_600);
        let car = Car { id, start: draw.float(0.1, 0.4), target: draw.float(0.6, 0.9), arrival, ..Car::default() };
        draft.vehicles.push(car.block());
    }
    Work {
        name: "steps: a day of 20 cars with long empty hours".into(),
        plan: draft.bytes(),
        call: Call::Run(1, MOST),
        per: Per::Call,
    }
}

/// Four chargers and three cars over a day, each for about ten minutes.
fn sparse_day() -> Work {
    let mut draft = Draft::default();
    draft.profiles.push(profile(1, 60.0, &sloped()));
    for k in 0..4 {
        draft.chargers.push(charger(k, &[], 100.0, 400.0, 400.0));
    }
    for (id, arrival) in [(1, 6 * 3_600), (2, 13 * 3_600), (3, 22 * 3_600)] {
        draft.vehicles.push(Car { id, arrival, start: 0.3, target: 0.55, ..Car::default() }.block());
    }
    Work {
        name: "steps: a sparse day of three cars".into(),
        plan: draft.bytes(),
        call: Call::Run(1, MOST),
        per: Per::Call,
    }
}

/// Ten points of falling power.
fn sloped() -> Vec<(f64, f64)> {
    (0..10).map(|k| (f64::from(k) / 10.0, 150.0 - 12.0 * f64::from(k))).collect()
}

/// Two short stays almost twelve days apart.
fn far_apart() -> Work {
    let mut draft = Draft::default();
    draft.profiles.push(profile(1, 50.0, &[(0.5, 50.0)]));
    draft.chargers.push(charger(1, &[], 50.0, 1_200.0, 400.0));
    for (id, arrival) in [(1, 0), (2, 1_000_000)] {
        draft.vehicles.push(Car { id, arrival, wait: 0, start: 0.5, target: 0.51, ..Car::default() }.block());
    }
    Work {
        name: "steps: two cars 1,000,000 s apart".into(),
        plan: draft.bytes(),
        call: Call::Run(1, MOST),
        per: Per::Call,
    }
}

/// A largest plan that is accepted; it keeps its first chargers.
fn site(chargers: usize) -> Draft {
    let mut draw = Draw::new(9, 0);
    loop {
        let case = generate::shaped("largest", &mut draw);
        if oracle::check(&case.plan)[0] == 0 {
            let mut draft = Draft::of(&case.plan).unwrap();
            draft.chargers.truncate(chargers);
            return draft;
        }
    }
}

/// A car like the plan's last, with an id of its own, that arrives as late as a car may.
fn late_car(plan: &[u8]) -> Block {
    let vehicles = Draft::of(plan).unwrap().vehicles;
    let Some(mut car) = vehicles.last().copied() else { return [0; BLOCK] };
    let id = (0..).find(|id| vehicles.iter().all(|vehicle| u32_at(vehicle, 0) != *id)).unwrap();
    put(&mut car, 0, &id.to_le_bytes());
    put(&mut car, 40, &1_000_000u64.to_le_bytes());
    seal(&mut car, plan.len() / BLOCK + 1);
    car
}

/// Cars that all come within minutes and wait for long, of fleets whose places are taken for most of the time.
fn fleets() -> Vec<u8> {
    let mut draft = Draft::default();
    draft.profiles.push(profile(1, 50.0, &sloped()));
    for id in 1..=2 {
        draft.chargers.push(charger(id, &[], 150.0, 1_200.0, 400.0));
    }
    for (fleet, places) in [(1, 4), (2, 8), (3, 12), (64, 16)] {
        draft.set_places(fleet, places);
        for k in 0..16 {
            let (id, arrival) = (100 * u32::from(fleet) + k, u64::from(k) * 10 + u64::from(fleet));
            let car = Car { id, fleet, arrival, wait: 50_000, queue_limit: 64, ..Car::default() };
            draft.vehicles.push(car.block());
        }
    }
    draft.bytes()
}

fn busy_site(chargers: usize) -> Vec<u8> {
    site(chargers).bytes()
}

fn largest() -> Vec<u8> {
    site(32).bytes()
}
