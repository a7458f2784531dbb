//! Records the oracle's answers for a replay without Rust. The README describes the form.
use oracle::accounts::Run;
use oracle::arguments::Words;
use oracle::bay;
use oracle::blocks::reseal;
use oracle::draw::Draw;
use oracle::generate::{self, Case, SHAPES};
use oracle::plan::MOST_BLOCKS;
use oracle::program;
use oracle::recording::{Reader, keep, record_changes};

/// The replaying program's buffer of input, all zero at first and never cleared.
const BUFFER: usize = 65_536;

/// Cases of each shape whose plans have at most so many blocks.
const SMALL: (u64, usize) = (14, 12);
const LARGE: (u64, usize) = (2, MOST_BLOCKS);
const MOST: u32 = 10_000_000;
/// Cases of each refusal that the program can give. (Its book is never too short.)
const REFUSED: u64 = 6;
const REFUSALS: [u64; 11] = [1, 2, 4, 5, 6, 7, 8, 9, 10, 11, 12];

struct Options {
    numbers: bool,
    folder: String,
    seed: u64,
}

fn options() -> Options {
    let mut words = Words::of("record [--numbers] FOLDER [SEED]");
    let mut folder = words.needed("FOLDER");
    let numbers = folder == "--numbers";
    if numbers {
        folder = words.needed("FOLDER");
    }
    if folder.starts_with('-') {
        words.wrong(format!("{folder} is no folder"));
    }
    let seed = words.number_or("SEED", 1);
    words.end();
    Options { numbers, folder, seed }
}

fn main() {
    let Options { numbers, folder, seed } = options();
    let inputs = inputs(seed);
    let mut outputs = Vec::new();
    for input in &inputs {
        let (output, answer) = program::output(input);
        if numbers {
            outputs.extend((answer.map(|number| number.to_string()).join(" ") + "\n").into_bytes());
        }
        outputs.extend(output);
    }
    let recorded = encode(&inputs);
    assert!(decode(&recorded) == inputs, "the record reads back");
    keep(&folder, inputs.len(), &recorded, &outputs);
}

fn inputs(seed: u64) -> Vec<Vec<u8>> {
    let mut draw = Draw::new(seed, 0);
    let too_long = vec![0; 5 + 512 * (MOST_BLOCKS + 1)];
    let mut inputs: Vec<Vec<u8>> = vec![vec![], vec![2], vec![0, 255, 255, 255], vec![1, 0, 0, 0, 0], too_long];
    inputs.extend(bay::worked());
    for number in REFUSALS {
        let refused = |input: &[u8]| program::output(input).1[0] == number;
        inputs.extend(drawn(&mut draw, "refused once", (REFUSED, SMALL.1), refused));
    }
    for (name, _, _) in SHAPES.iter().filter(|(name, _, _)| *name != "refused once") {
        let extent = if matches!(*name, "many chargers" | "largest") { LARGE } else { SMALL };
        inputs.extend(drawn(&mut draw, name, extent, |_| true));
    }
    inputs.extend(one_plan_many_ways(&mut draw));
    inputs.extend(fleets());
    inputs.extend(even_shares(&mut draw));
    inputs
}

/// So many inputs of a shape, of plans of at most so many blocks.
fn drawn(draw: &mut Draw, name: &str, (count, blocks): (u64, usize), wanted: impl Fn(&[u8]) -> bool) -> Vec<Vec<u8>> {
    let mut inputs = Vec::new();
    while (inputs.len() as u64) < count {
        let case = generate::shaped(name, draw);
        let input = program::input(case.engine.min(255) as u8, case.allowance, &case.plan);
        if case.plan.len() <= 512 * blocks && quick(&case) && wanted(&input) {
            inputs.push(input);
        }
    }
    inputs
}

/// Step runs of few rounds, so that the replay is quick wherever it runs.
fn quick(case: &Case) -> bool {
    case.engine != 1 || case.allowance > 10_000_000 || Run::new(&case.plan, 1, case.allowance).numbers[3] <= 20_000
}

/// One plan under growing allowances by both engines, and damaged in each of its first fields.
fn one_plan_many_ways(draw: &mut Draw) -> Vec<Vec<u8>> {
    let mut case = generate::shaped("ties at one second", draw);
    while Run::new(&case.plan, 0, 10_000_000).numbers[8..].contains(&0) {
        case = generate::shaped("ties at one second", draw);
    }
    let mut inputs = Vec::new();
    for engine in [0, 1] {
        for allowance in 0..20 {
            inputs.push(program::input(engine, allowance, &case.plan));
        }
    }
    for block in [0, 1, 2, case.plan.len() / 512 - 1] {
        for at in (0..60).step_by(3) {
            let mut plan = case.plan.clone();
            plan[512 * block + at] ^= 1 << draw.below(8);
            reseal(&mut plan, block);
            inputs.push(program::input((at % 2) as u8, 1_000, &plan));
        }
    }
    inputs
}

/// A lane of fleets by both engines, cut where its queue grows and shrinks, and with its fields out of limits.
fn fleets() -> Vec<Vec<u8>> {
    let lane = bay::lane();
    let mut inputs = Vec::new();
    for (engine, cuts) in [(0, [3, 5, 9, 12, MOST]), (1, [11, 41, 62, 102, MOST])] {
        inputs.extend(cuts.map(|allowance| program::input(engine, allowance, &lane.bytes())));
    }
    for (block, at, byte) in [(0, 24, 65), (0, 87, 255), (0, 88, 1), (3, 60, 65), (4, 61, 1), (5, 62, 1)] {
        let mut wrong = lane.clone();
        wrong.block_mut(block)[at] = byte;
        inputs.push(program::input(0, MOST, &wrong.bytes()));
    }
    inputs
}

/// Cars that share a limit evenly: many of them by steps, a few by both engines, and the limit's fields out of limits.
fn even_shares(draw: &mut Draw) -> Vec<Vec<u8>> {
    let many = |input: &[u8]| input[0] == 1 && input[11] >= 16 && program::output(input).1[3] > 20;
    let mut inputs = drawn(draw, "even shares", LARGE, many);
    // 1.001 is below 1,001 W.
    let limits = [0.125, 0.3, 1.0, 1.001, 1.001_f64.next_up(), 1.499, 1.5, 65_536.0];
    for limit in limits {
        let plan = bay::shared(limit).bytes();
        inputs
            .extend([(0, MOST), (1, 3), (1, MOST)].map(|(engine, allowance)| program::input(engine, allowance, &plan)));
    }
    for (mode, limit) in [(3, 1.0), (255, 1.0), (2, 0.0), (2, 0.125_f64.next_down()), (2, 65_536_f64.next_up())] {
        let mut wrong = bay::shared(limit);
        wrong.header[12] = mode;
        inputs.push(program::input(1, MOST, &wrong.bytes()));
    }
    inputs
}

/// The record of inputs: their number, then each as its length and the changes to the buffer.
fn encode(inputs: &[Vec<u8>]) -> Vec<u8> {
    let mut record = (inputs.len() as u32).to_le_bytes().to_vec();
    let mut buffer = vec![0; BUFFER];
    for input in inputs {
        record.extend((input.len() as u32).to_le_bytes());
        record_changes(&mut record, &mut buffer, input);
    }
    record
}

/// Reads a record as the replaying program does.
fn decode(record: &[u8]) -> Vec<Vec<u8>> {
    let mut reader = Reader(record);
    let mut buffer = vec![0; BUFFER];
    (0..reader.number(4))
        .map(|_| {
            let len = reader.number(4);
            reader.change(&mut buffer);
            buffer[..len].to_vec()
        })
        .collect()
}
