//! Makes the rounds of one subject and prints their digest, for a counter of instructions to look at (see README.md):
//! `rounds SUBJECT SIZE ROUNDS`, where a round is a replacement and a question.
use jigsorrel_bench::array::ArrayPlan;
use jigsorrel_bench::ffi;
use jigsorrel_bench::plain_tree::PlainPlan;
use jigsorrel_bench::seeded::Run;
use std::env;
use std::process::ExitCode;

const TREE_ROWS: usize = 4096;

/// A seed whose fill is refused nowhere at the sizes of the table.
const SEED: u64 = 3;

fn main() -> ExitCode {
    let words: Vec<String> = env::args().skip(1).collect();
    let [subject, size, rounds] = words.as_slice() else {
        eprintln!("rounds SUBJECT SIZE ROUNDS");
        return ExitCode::from(2);
    };
    let (Ok(size), Ok(rounds)) = (size.parse::<u16>(), rounds.parse::<u32>()) else {
        eprintln!("SIZE and ROUNDS are numbers");
        return ExitCode::from(2);
    };
    let run = Run {
        seed: SEED,
        size,
        mix: 1,
        count: u32::from(size) + 2 * rounds,
    };
    let digest = match subject.as_str() {
        "library" => ffi::calls_on_tree(&run),
        "plain" => run.digest(&mut PlainPlan::new(TREE_ROWS)),
        "passes" => run.digest(&mut ArrayPlan::new(TREE_ROWS)),
        "anew" => run.digest(&mut ArrayPlan::of_moves_alone(TREE_ROWS)),
        _ => {
            eprintln!("SUBJECT is library, plain, passes or anew");
            return ExitCode::from(2);
        }
    };
    println!("{digest:016x}");
    ExitCode::SUCCESS
}
