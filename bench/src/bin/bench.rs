//! Times the static library against its rivals in one run, and prints the ratios. `bench quick` takes fewer and shorter
//! measurements.
use jigsorrel_bench::array::ArrayPlan;
use jigsorrel_bench::calls::Call;
use jigsorrel_bench::plain_tree::PlainPlan;
use jigsorrel_bench::random_jobs::{whole_job, Random};
use jigsorrel_bench::seeded::Run;
use jigsorrel_bench::{ffi, job};
use std::hint::black_box;
use std::time::Instant;

const TREE_ROWS: usize = 4096;

type Subject = fn(&Run) -> u64;

fn on_array(run: &Run) -> u64 {
    run.digest(&mut ArrayPlan::new(TREE_ROWS))
}

fn on_moves_alone(run: &Run) -> u64 {
    run.digest(&mut ArrayPlan::of_moves_alone(TREE_ROWS))
}

fn on_plain_tree(run: &Run) -> u64 {
    run.digest(&mut PlainPlan::new(TREE_ROWS))
}

/// How long and how often to measure.
#[derive(Clone, Copy)]
struct Effort {
    repeats: usize,
    /// About so many nanoseconds a measurement.
    span: f64,
}

/// One kind of round: an edit and a question, on a plan of `size` blocks.
#[derive(Clone, Copy)]
struct Load {
    name: &'static str,
    mix: u8,
    size: u16,
}

const REPLACE: &str = "replace + question";
const SHIFT: &str = "delete or insert + question";
const OVERRIDE: &str = "override of 64 + question";

fn load(name: &'static str, size: u16) -> Load {
    let mix = match name {
        REPLACE => 1,
        SHIFT => 2,
        _ => 3,
    };
    Load { name, mix, size }
}

impl Load {
    /// Only the fill, or the fill and so many rounds.
    fn run(&self, rounds: u32) -> Run {
        let count = u32::from(self.size) + 2 * rounds;
        Run {
            seed: self.seed(),
            size: self.size,
            mix: self.mix,
            count,
        }
    }

    /// The first seed that fills the plan without a refusal, so that there are as many blocks as the table says.
    fn seed(&self) -> u64 {
        let fills = |seed: &u64| {
            let run = Run {
                seed: *seed,
                size: self.size,
                mix: self.mix,
                count: 0,
            };
            (0..u32::from(self.size)).all(|k| fits(run.call_at(k)))
        };
        (0..)
            .find(fills)
            .expect("one seed in sixty fills 4,096 rows")
    }

    /// The nanoseconds of a round on each subject. The fill is timed alone and taken off. The subjects take turns, so
    /// that a busy machine disturbs all of them alike, and the least time of each counts.
    fn time<const N: usize>(&self, subjects: [Subject; N], effort: Effort) -> [f64; N] {
        let rounds = subjects.map(|subject| self.rounds(subject, effort));
        let mut least = [[f64::INFINITY; 2]; N];
        for _ in 0..effort.repeats {
            for (k, subject) in subjects.iter().enumerate() {
                for (which, rounds) in [(0, 0), (1, rounds[k])] {
                    let run = self.run(rounds);
                    least[k][which] = least[k][which].min(nanoseconds(|| subject(&run)));
                }
            }
        }
        std::array::from_fn(|k| (least[k][1] - least[k][0]) / f64::from(rounds[k]))
    }

    /// As many rounds as take about the time asked for.
    fn rounds(&self, subject: Subject, effort: Effort) -> u32 {
        const TRIAL: u32 = 200;
        let (fill, trial) = (self.run(0), self.run(TRIAL));
        let taken = nanoseconds(|| subject(&trial)) - nanoseconds(|| subject(&fill));
        let one = (taken / f64::from(TRIAL)).max(20.0);
        ((effort.span / one) as u32).clamp(TRIAL, 200_000)
    }
}

fn fits(call: Call) -> bool {
    matches!(call, Call::Insert(_, m) if (1..=2000).contains(&m.acceleration))
}

fn nanoseconds<T>(work: impl FnOnce() -> T) -> f64 {
    let begin = Instant::now();
    black_box(work());
    begin.elapsed().as_nanos() as f64
}

/// What a ratio should come to.
#[derive(Clone, Copy)]
enum Target {
    AtLeast(f64),
    AtMost(f64),
}

impl Target {
    fn is_met(self, ratio: f64) -> bool {
        match self {
            Target::AtLeast(least) => ratio >= least,
            Target::AtMost(most) => ratio <= most,
        }
    }

    fn words(self, ratio: f64) -> String {
        let mark = if self.is_met(ratio) { "met" } else { "missed" };
        match self {
            Target::AtLeast(least) => format!(">= {least} {mark}"),
            Target::AtMost(most) => format!("<= {most} {mark}"),
        }
    }
}

/// What the library keeps the blocks in.
#[derive(Clone, Copy, PartialEq)]
enum Sequence {
    Tree,
    List,
}

/// How many targets were met and missed.
#[derive(Default)]
struct Score {
    met: usize,
    missed: usize,
}

impl Score {
    fn cell(&mut self, ratio: f64, target: Option<Target>) -> String {
        let Some(target) = target else {
            return format!("{ratio:7.2}");
        };
        if target.is_met(ratio) {
            self.met += 1;
        } else {
            self.missed += 1;
        }
        format!("{ratio:7.2} {}", target.words(ratio))
    }
}

/// What redoing the passes should at least take, as a multiple of the library's tree.
fn target_over_passes(load: &Load) -> Option<Target> {
    match (load.name, load.size) {
        (OVERRIDE, _) => None,
        (_, 16) => Some(Target::AtLeast(0.5)),
        (_, 256) => Some(Target::AtLeast(5.0)),
        (_, 4096) => Some(Target::AtLeast(50.0)),
        _ => None,
    }
}

fn target_over_plain(load: &Load) -> Option<Target> {
    (load.size > 0).then_some(Target::AtMost(2.0))
}

fn print_head() {
    println!(
        "{:7} {:28} {:>5} {:>8} {:>8} {:>8} {:>8}  {:22} {:14} library/plain",
        "library",
        "round",
        "n",
        "library",
        "passes",
        "anew",
        "plain",
        " passes/library",
        " anew/library"
    );
}

/// One line of the table. Only the tree is held to targets: it is the sequence for large plans.
fn print_load(load: Load, on: Sequence, score: &mut Score, effort: Effort) {
    let (kind, library): (_, Subject) = match on {
        Sequence::Tree => ("tree", ffi::calls_on_tree),
        Sequence::List => ("list", ffi::calls_on_list),
    };
    let held = |target: Option<Target>| target.filter(|_| on == Sequence::Tree);
    let subjects = [library, on_array, on_moves_alone, on_plain_tree];
    let [own, passes, anew, plain] = load.time(subjects, effort);
    let over_passes = score.cell(passes / own, held(target_over_passes(&load)));
    let over_anew = score.cell(anew / own, None);
    let over_plain = score.cell(own / plain, held(target_over_plain(&load)));
    let (name, size) = (load.name, load.size);
    println!(
        "{kind:7} {name:28} {size:5} {own:8.0} {passes:8.0} {anew:8.0} {plain:8.0}  {over_passes:22} {over_anew:14} {over_plain}"
    );
}

fn print_rounds(effort: Effort) -> Score {
    let mut score = Score::default();
    let all = [
        (Sequence::Tree, REPLACE, &[0, 16, 64, 256, 1024, 4096][..]),
        (Sequence::Tree, SHIFT, &[16, 256, 4096]),
        (Sequence::Tree, OVERRIDE, &[256, 4096]),
        (Sequence::List, REPLACE, &[16, 256]),
        (Sequence::List, SHIFT, &[16, 256]),
    ];
    for (on, name, sizes) in all {
        for &size in sizes {
            print_load(load(name, size), on, &mut score, effort);
        }
    }
    score
}

/// The nanoseconds a byte of a job, for the library and for the naive reading of the rules.
fn time_job<T, U>(
    bytes: usize,
    mut library: impl FnMut() -> T,
    naive: impl Fn() -> U,
    effort: Effort,
) -> [f64; 2] {
    let mut least = [f64::INFINITY; 2];
    for _ in 0..effort.repeats {
        least[0] = least[0].min(nanoseconds(&mut library));
        least[1] = least[1].min(nanoseconds(&naive));
    }
    least.map(|taken| taken / bytes as f64)
}

fn print_jobs(effort: Effort) {
    println!("\njobs, ns a byte");
    println!(
        "{:28} {:>9} {:>9} {:>9}   naive / library",
        "work", "bytes", "library", "naive"
    );
    let mut random = Random::new(1);
    for (first_inserts, fields) in [(8, 40), (200, 2300)] {
        let job = whole_job(&mut random, first_inserts, fields, 40);
        let mut text = vec![0; ffi::text_room(job.len())];
        let bytes = job.len();
        let verdict = time_job(
            bytes,
            || ffi::verdict(black_box(&job)),
            || job::verdict(black_box(&job)),
            effort,
        );
        let run = time_job(
            bytes,
            || ffi::run_job(black_box(&job), &mut text),
            || job::text(black_box(&job)),
            effort,
        );
        for (name, [library, naive]) in [("verdict", verdict), ("whole run", run)] {
            let faster = naive / library;
            println!("{name:28} {bytes:9} {library:9.2} {naive:9.2}   {faster:8.2}");
        }
    }
}

fn main() {
    let quick = std::env::args().nth(1).is_some_and(|word| word == "quick");
    let effort = if quick {
        Effort {
            repeats: 5,
            span: 1e6,
        }
    } else {
        Effort {
            repeats: 25,
            span: 1e7,
        }
    };
    println!("library: libfirmware.a as `rt lib` builds it");
    println!(
        "rivals:  by rustc, opt-level {}; buffers are not cleared before a run",
        env!("JIGSORREL_OPT_LEVEL")
    );
    println!(
        "  passes  an array of blocks with their lengths, both passes redone at each question"
    );
    println!("  anew    the same, but the lengths worked out at each question as well");
    println!("  plain   the library's tree in ordinary Rust");
    println!("\nns a round, and ratios (n = 0: edits are refused, so that is what drawing the calls costs)");
    print_head();
    let score = print_rounds(effort);
    print_jobs(effort);
    println!("\ntargets: {} met, {} missed", score.met, score.missed);
}
