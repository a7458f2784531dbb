//! Compares product and oracle over cases by seed, and shrinks the first difference.
//!
//! By call: the product that SITE_ARCHIVE named at build time, else the copy with the slip that SLIP named.
//! `--program` compares a program by standard input and output instead.
//! `--shape` takes every case of the one shape that it names.
//! `--count` goes on past differences and says how many cases differ.
//! `--dumps` compares request 1's calls, dump and continue, at every cut of each case's run by events.
//! `--books` compares request 5's call on books of drawn lists and of runs, and on damaged ones.
//! `--late` compares request 7's call, a late booking, at cuts of each case's run by events.
//! `--practice` compares request 11's call, a practice day, and check and run of the days that are written.
//! `--panel` compares request 12's call, scripts for the cabinets' registers beside each case's run by steps.
//! `--shares` compares a program that shares lists of requests, request 10's shares by themselves, on drawn lists.
//! `--sweep` damages a small plan, or book, the block of a late car or a plan of one vehicle, at every byte in place of drawn cases; of a panel
//! it reads and writes every address.
//! `--trace` names each case on standard error before it runs, for a side that may crash or hang.
use oracle::arguments::Words;
use oracle::both::Tally;
use oracle::draw::Draw;
use oracle::generate::{self, Case, SHAPES};
use oracle::share_lists::List;
use oracle::shrink::shrink;
use oracle::sides::{OTHER, Side, difference_on_input, output_of};
use oracle::{blocks, books, days, late, panels, program, share_lists, words};
use std::collections::BTreeMap;
use std::ops::Range;
use std::path::{Path, PathBuf};
use std::process::ExitCode;
use std::time::Instant;

const USAGE: &str = "compare [--cases N] [--seed S] [--from INDEX] [--shape NAME] [--dumps | --books | --late | --practice | --panel | --shares PATH | --program PATH] [--sweep] [--count] [--trace]";

struct Options {
    cases: u64,
    seed: u64,
    from: u64,
    shape: Option<String>,
    program: Option<PathBuf>,
    dumps: bool,
    books: bool,
    late: bool,
    practice: bool,
    panel: bool,
    shares: Option<PathBuf>,
    sweep: bool,
    count: bool,
    trace: bool,
}

fn options() -> Options {
    let mut options = Options {
        cases: 20_000,
        seed: 1,
        from: 0,
        shape: None,
        program: None,
        dumps: false,
        books: false,
        late: false,
        practice: false,
        panel: false,
        shares: None,
        sweep: false,
        count: false,
        trace: false,
    };
    let mut words = Words::of(USAGE);
    while let Some(word) = words.word() {
        match word.as_str() {
            "--cases" => options.cases = words.number("N"),
            "--seed" => options.seed = words.number("S"),
            "--from" => options.from = words.number("INDEX"),
            "--shape" => options.shape = Some(shape(&mut words)),
            "--program" => options.program = Some(words.needed("PATH").into()),
            "--dumps" => options.dumps = true,
            "--books" => options.books = true,
            "--late" => options.late = true,
            "--practice" => options.practice = true,
            "--panel" => options.panel = true,
            "--shares" => options.shares = Some(words.needed("PATH").into()),
            "--sweep" => options.sweep = true,
            "--count" => options.count = true,
            "--trace" => options.trace = true,
            _ => words.wrong(format!("{word} is unknown")),
        }
    }
    let by_call = [options.dumps, options.books, options.late, options.practice, options.panel];
    let by_program = [options.shares.is_some(), options.program.is_some()];
    if by_call.into_iter().chain(by_program).filter(|given| *given).count() > 1 {
        words.wrong("--dumps, --books, --late, --practice, --panel, --shares and --program are compared one at a time");
    }
    if options.books && options.shape.is_some() {
        words.wrong("--books has cases of every shape");
    }
    if options.shares.is_some() && (options.shape.is_some() || options.sweep) {
        words.wrong("--shares has drawn lists alone");
    }
    options
}

fn shape(words: &mut Words) -> String {
    let name = words.needed("NAME");
    if SHAPES.iter().all(|(known, _, _)| *known != name) {
        words.wrong(format!("there is no shape {name}"));
    }
    name
}

fn main() -> ExitCode {
    let options = options();
    if options.books {
        return compare_books(&options);
    }
    if let Some(path) = &options.shares {
        return compare_shares(&options, path);
    }
    if options.late && options.sweep {
        return sweep_steps(&options, late::steps(), late::swept);
    }
    if options.practice && options.sweep {
        return sweep_steps(&options, days::steps(), days::swept);
    }
    if options.panel && options.sweep {
        return sweep_steps(&options, panels::steps(), panels::swept);
    }
    let started = Instant::now();
    let side = match &options.program {
        Some(path) => Side::Program(path.clone()),
        None if options.dumps => Side::Dumps(Default::default()),
        None if options.late => Side::Late(Default::default()),
        None if options.practice => Side::Practice(Default::default()),
        None if options.panel => Side::Panel(Default::default()),
        None => Side::Linked,
    };
    let name = options.program.as_ref().map_or(OTHER.to_string(), |path| path.display().to_string());
    println!("the oracle and {name}, seed {}", options.seed);
    if let Some(path) = &options.program
        && let Some(what) = short_inputs(path)
    {
        println!("DIFFERENCE {what}");
        return ExitCode::FAILURE;
    }
    let mut answers = BTreeMap::new();
    let (mut compared, mut different) = (0, 0);
    let cases: Box<dyn Iterator<Item = Case>> = match options.sweep {
        true => Box::new(sweep(options.seed)),
        false => {
            let end = options.from.saturating_add(options.cases);
            let (seed, shape, dumped) = (options.seed, options.shape.clone(), options.dumps || options.late);
            Box::new((options.from..end).map(move |index| match &shape {
                Some(name) => generate::shaped(name, &mut Draw::new(seed, index)),
                None if dumped => generate::for_dumps(seed, index),
                None => generate::case(seed, index),
            }))
        }
    };
    for (k, case) in cases.enumerate() {
        if options.trace {
            eprintln!("case {}", options.from + k as u64);
        }
        let difference = side.difference(&case);
        compared += 1;
        if options.count {
            different += u64::from(difference.is_some());
        } else if let Some(what) = difference {
            report(&side, options.from + k as u64, case, &what);
            return ExitCode::FAILURE;
        }
        *answers.entry(oracle::check(&case.plan)[0]).or_insert(0) += 1;
    }
    let mut answers = format!("answers of check by number: {}", by_number(&answers));
    if let Side::Dumps(tally) | Side::Late(tally) | Side::Practice(tally) | Side::Panel(tally) = &side {
        answers += &format!("\n{}", of_calls(&tally.borrow()));
    }
    summed_up(compared, different, started, &answers)
}

/// The answers of each call that was made.
fn of_calls(tally: &Tally) -> String {
    let calls = [
        ("dump", &tally.dumps),
        ("late booking", &tally.booked),
        ("continue", &tally.continued),
        ("practice day", &tally.practised),
        ("check of a day", &tally.days),
        ("panel", &tally.panels),
    ];
    let made = calls.into_iter().filter(|(_, answers)| !answers.is_empty());
    let answers: Vec<String> = made.map(|(name, answers)| format!("of {name}: {}", by_number(answers))).collect();
    let seen = if tally.panels.is_empty() { String::new() } else { format!("; {}", tally.seen) };
    answers.join("; ") + &seen
}

fn summed_up(compared: u64, different: u64, started: Instant, answers: &str) -> ExitCode {
    println!(
        "{} of {compared} cases alike in {:.1} s; {answers}",
        compared - different,
        started.elapsed().as_secs_f64()
    );
    if different == 0 { ExitCode::SUCCESS } else { ExitCode::FAILURE }
}

/// Request 5, whose cases are no plans.
fn compare_books(options: &Options) -> ExitCode {
    let indices = match options.sweep {
        true => 0..books::steps(),
        false => options.from..options.from.saturating_add(options.cases),
    };
    let compare = if options.sweep { books::swept } else { books::difference };
    let mut tally = books::Tally::new();
    let described = |books::Difference { what, book }| {
        let [said, digits] = [words::describe_book(&book), words::hex(&book)];
        format!("{what}\n{said}\nthe book, [n] being n zero bytes:\n{digits}")
    };
    let differs = |index, tally: &mut books::Tally| compare(options.seed, index, tally).map(described);
    by_index(options, indices, &mut tally, differs, |tally| format!("answers by number: {}", by_number(tally)))
}

/// Request 7, 11 or 12 on one small plan, with every byte of the car or of the plan, or every address.
fn sweep_steps(options: &Options, steps: u64, swept: fn(u64, u64, &mut Tally) -> Option<String>) -> ExitCode {
    let differs = |index, tally: &mut Tally| swept(options.seed, index, tally);
    by_index(options, 0..steps, &mut Tally::default(), differs, of_calls)
}

/// So many lists fit the program's buffer, whatever their lengths.
const LISTS_AT_ONCE: u64 = 240;

/// Request 10's shares by themselves, some hundreds of lists at once.
fn compare_shares(options: &Options, path: &Path) -> ExitCode {
    let started = Instant::now();
    println!("the oracle and {}, seed {}", path.display(), options.seed);
    let mut tally = share_lists::Tally::default();
    let (mut compared, mut different) = (0, 0);
    let end = options.from.saturating_add(options.cases);
    for first in (options.from..end).step_by(LISTS_AT_ONCE as usize) {
        if options.trace {
            eprintln!("cases from {first}");
        }
        let indices = first..end.min(first.saturating_add(LISTS_AT_ONCE));
        let lists: Vec<List> = indices.map(|index| List::drawn(&mut Draw::new(options.seed, index))).collect();
        lists.iter().for_each(|list| tally.add(list));
        compared += lists.len() as u64;
        let differences = share_lists::differences(&lists, &output_of(path, &share_lists::record(&lists)));
        different += differences.len() as u64;
        if let Some((k, what)) = differences.first().filter(|_| !options.count) {
            println!("DIFFERENCE in case {}: {what}", first + *k as u64);
            return ExitCode::FAILURE;
        }
    }
    summed_up(compared, different, started, &tally.to_string())
}

/// Compares by index alone, and says at the end what the tally has.
fn by_index<T>(
    options: &Options,
    indices: Range<u64>,
    tally: &mut T,
    differs: impl Fn(u64, &mut T) -> Option<String>,
    answers: impl Fn(&T) -> String,
) -> ExitCode {
    let started = Instant::now();
    println!("the oracle and {OTHER}, seed {}", options.seed);
    let (mut compared, mut different) = (0, 0);
    for index in indices {
        if options.trace {
            eprintln!("case {index}");
        }
        compared += 1;
        let Some(what) = differs(index, tally) else { continue };
        different += 1;
        if !options.count {
            println!("DIFFERENCE in case {index}: {what}");
            return ExitCode::FAILURE;
        }
    }
    summed_up(compared, different, started, &answers(tally))
}

fn by_number(answers: &BTreeMap<u64, u64>) -> String {
    let answers: Vec<String> = answers.iter().map(|(number, count)| format!("{number}: {count}")).collect();
    answers.join(", ")
}

fn report(side: &Side, index: u64, case: Case, what: &str) {
    // Dumps are of the run by events, and panels of that by steps, whatever the case's own engine.
    let described = |case: &Case| match side {
        Side::Dumps(_) | Side::Late(_) | Side::Practice(_) => {
            words::describe(&Case { engine: 0, allowance: 10_000_000, ..case.clone() })
        }
        Side::Panel(_) => words::describe(&Case { engine: 1, allowance: 10_000_000, ..case.clone() }),
        _ => words::describe(case),
    };
    println!("DIFFERENCE in case {index}: {what}\n{}", described(&case));
    // The plan's own answer is kept, so that a refused plan shrinks to a refused one.
    let number = oracle::check(&case.plan)[0];
    let small = shrink(case, |case| oracle::check(&case.plan)[0] == number && side.difference(case).is_some());
    let what = side.difference(&small).unwrap();
    println!("SHRUNK: {what}\n{}", described(&small));
    let input = program::input(small.engine.min(255) as u8, small.allowance, &small.plan);
    println!("the program's input, [n] being n zero bytes:\n{}", words::hex(&input));
}

/// Inputs that end within the first five bytes, and right after them.
fn short_inputs(path: &Path) -> Option<String> {
    let byte = [0, 1, 2, 255];
    let mut inputs: Vec<Vec<u8>> = vec![Vec::new(), vec![0, 255, 255, 255]];
    for len in 1..=6 {
        for value in byte {
            inputs.push(vec![value; len]);
            inputs.push([&vec![0; len - 1][..], &[value]].concat());
        }
    }
    inputs
        .iter()
        .find_map(|input| difference_on_input(path, input).map(|what| format!("on the input {input:02x?}: {what}")))
}

/// A small plan damaged at each byte, with and without a new check.
fn sweep(seed: u64) -> impl Iterator<Item = Case> {
    let mut draw = Draw::new(seed, u64::MAX);
    let mut plain = generate::shaped("connectors", &mut draw);
    while plain.plan.len() > 8 * blocks::BLOCK || oracle::check(&plain.plan)[0] != 0 {
        plain = generate::shaped("connectors", &mut draw);
    }
    plain.allowance = 400;
    plain.book = oracle::book::LEAST_BOOK;
    let count = plain.plan.len() * 8;
    (0..count).map(move |k| {
        let (at, way) = (k / 8, k % 8);
        let mut case = plain.clone();
        case.shape = "damaged at every byte";
        case.engine = (way % 2) as u32;
        case.plan[at] = match way / 2 {
            0 => case.plan[at] ^ 1,
            1 => case.plan[at] ^ 0x80,
            2 => case.plan[at].wrapping_add(1),
            _ => draw.number() as u8,
        };
        let block = at / blocks::BLOCK;
        if way != 7 {
            blocks::reseal(&mut case.plan, block);
        }
        case
    })
}
