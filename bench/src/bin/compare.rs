//! Holds the static library against independent plain Rust, result by result and byte by byte. `compare quick` makes a
//! few of the comparisons.
use jigsorrel_bench::array::ArrayPlan;
use jigsorrel_bench::calls::Planner;
use jigsorrel_bench::plain_tree::PlainPlan;
use jigsorrel_bench::random_jobs::{braking_job, damaged, whole_job, Random};
use jigsorrel_bench::seeded::Run;
use jigsorrel_bench::{ffi, job, naive};
use std::fmt::Debug;
use std::path::Path;
use std::process::ExitCode;

const TREE_ROWS: usize = 4096;
const LIST_SLOTS: usize = 256;

/// What the bytes of a text buffer are before a run, so that one written needlessly shows.
const CANARY: u8 = 0xA5;

/// How many comparisons of a part came out alike, and the first that did not.
struct Part {
    name: &'static str,
    alike: usize,
    differ: usize,
    first: Option<String>,
}

impl Part {
    fn new(name: &'static str) -> Part {
        Part {
            name,
            alike: 0,
            differ: 0,
            first: None,
        }
    }

    fn check(&mut self, alike: bool, explain: impl FnOnce() -> String) {
        if alike {
            self.alike += 1;
        } else {
            self.differ += 1;
            self.first.get_or_insert_with(explain);
        }
    }

    fn equal<T: PartialEq + Debug>(&mut self, library: T, expected: T, what: impl Fn() -> String) {
        let alike = library == expected;
        self.check(alike, || {
            format!(
                "{}\n  library:  {library:?}\n  expected: {expected:?}",
                what()
            )
        });
    }

    fn print(&self) {
        println!(
            "{}: {} alike, {} differ",
            self.name, self.alike, self.differ
        );
        if let Some(first) = &self.first {
            println!("  first difference: {first}");
        }
    }
}

fn main() -> ExitCode {
    let quick = std::env::args().nth(1).is_some_and(|word| word == "quick");
    let scale = if quick { 1 } else { 40 };
    let parts = [
        examples(),
        jobs(scale),
        braking_jobs(scale),
        buffers(scale),
        calls("calls on a tree", ffi::calls_on_tree, TREE_ROWS, scale),
        calls(
            "calls on a flat list",
            ffi::calls_on_list,
            LIST_SLOTS,
            scale,
        ),
        large_trees(scale),
        depths(scale),
        rivals(scale),
    ];
    let alike: usize = parts.iter().map(|part| part.alike).sum();
    let differ: usize = parts.iter().map(|part| part.differ).sum();
    println!("compare: {alike} alike, {differ} differ");
    ExitCode::from(u8::from(differ > 0))
}

/// What the library's verdict comes to as one number.
fn verdict_code(told: Result<(), job::Fault>) -> u64 {
    match told {
        Ok(()) => 0,
        Err(fault) => (u64::from(fault.number) << 32) + fault.offset as u64,
    }
}

fn hex(job: &[u8]) -> String {
    job.iter().map(|byte| format!("{byte:02X}")).collect()
}

/// The library's text of a job, in a buffer that is just long enough.
fn library_text(job: &[u8]) -> Result<String, u64> {
    let mut text = vec![CANARY; ffi::text_room(job.len())];
    let written = ffi::run_job(job, &mut text);
    let told = usize::try_from(written)
        .ok()
        .and_then(|end| text.get(..end));
    told.map(|told| String::from_utf8_lossy(told).into_owned())
        .ok_or(written)
}

fn compare_job(part: &mut Part, job: &[u8]) {
    part.equal(ffi::verdict(job), verdict_code(job::verdict(job)), || {
        format!("verdict of {}", hex(job))
    });
    let (library, expected) = (library_text(job), Ok(job::text(job)));
    part.equal(library, expected, || format!("text of {}", hex(job)));
}

fn examples() -> Part {
    let mut part = Part::new("examples");
    let folder = Path::new(env!("CARGO_MANIFEST_DIR")).join("../examples");
    let mut paths: Vec<_> = std::fs::read_dir(folder)
        .expect("the folder of examples")
        .map(|entry| entry.expect("an example").path())
        .filter(|path| path.extension().is_some_and(|ending| ending == "job"))
        .collect();
    paths.sort();
    for path in paths {
        let job = std::fs::read(&path).expect("an example");
        let stored = std::fs::read_to_string(path.with_extension("out")).expect("its text");
        part.equal(library_text(&job), Ok(stored), || {
            path.display().to_string()
        });
        compare_job(&mut part, &job);
    }
    part.print();
    part
}

fn random_job(random: &mut Random, k: usize) -> Vec<u8> {
    let fields = random.pick(&[0, 1, 3, 10, 40, 120]);
    let job = whole_job(random, 0, fields, [0, 12, 40][k % 3]);
    if k % 4 == 3 {
        damaged(random, job)
    } else {
        job
    }
}

/// Bytes of no meaning, but of tags and lengths that come near a field.
fn scrap(random: &mut Random) -> Vec<u8> {
    let length = random.below(12);
    let bytes = [
        0x00, 0x01, 0x02, 0x03, 0x04, 0x05, 0x06, 0x07, 0x08, 0x7F, 0x80, 0xFF,
    ];
    (0..length).map(|_| random.pick(&bytes)).collect()
}

fn jobs(scale: usize) -> Part {
    let mut part = Part::new("jobs, verdict and text");
    let mut random = Random::new(20_261_118);
    compare_job(&mut part, &[]);
    for byte in 0..=255 {
        compare_job(&mut part, &[byte]);
        compare_job(&mut part, &[byte, 0, 1, 0]);
    }
    for _ in 0..200 * scale {
        compare_job(&mut part, &scrap(&mut random));
    }
    for k in 0..200 * scale {
        compare_job(&mut part, &random_job(&mut random, k));
    }
    for k in 0..2 * scale {
        let job = whole_job(&mut random, 200 + 10 * (k % 20), 900, 40);
        compare_job(&mut part, &job);
    }
    every_cut(&mut part, &mut random);
    part.print();
    part
}

/// Refusal 8 with its junction anywhere in the plan: elsewhere it nearly always names one of the first two.
fn braking_jobs(scale: usize) -> Part {
    let mut part = Part::new("jobs that brake too late");
    let mut random = Random::new(8);
    for _ in 0..50 * scale {
        compare_job(&mut part, &braking_job(&mut random));
    }
    part.print();
    part
}

/// One job cut at every byte.
fn every_cut(part: &mut Part, random: &mut Random) {
    let job = whole_job(random, 2, 12, 0);
    for end in 0..job.len() {
        compare_job(part, &job[..end]);
    }
}

fn buffers(scale: usize) -> Part {
    let mut part = Part::new("text buffers");
    let mut random = Random::new(64);
    for k in 0..40 * scale {
        let job = random_job(&mut random, k);
        let room = ffi::text_room(job.len());
        for short in [room - 1, room / 2, 63, 1, 0] {
            compare_short_buffer(&mut part, &job, short);
        }
        for long in [room, room + 1, room + 777] {
            compare_long_buffer(&mut part, &job, long);
        }
    }
    part.print();
    part
}

fn compare_short_buffer(part: &mut Part, job: &[u8], room: usize) {
    let mut text = vec![CANARY; room];
    let answer = ffi::run_job(job, &mut text);
    let untouched = text.iter().all(|&byte| byte == CANARY);
    part.equal((answer, untouched), (ffi::TOO_SHORT, true), || {
        format!("a buffer of {room} bytes for {}", hex(job))
    });
}

fn compare_long_buffer(part: &mut Part, job: &[u8], room: usize) {
    let mut text = vec![CANARY; room];
    let answer = ffi::run_job(job, &mut text);
    let mut expected = job::text(job).into_bytes();
    let length = expected.len() as u64;
    expected.resize(room, CANARY);
    part.equal((answer, text), (length, expected), || {
        format!("a buffer of {room} bytes for {}", hex(job))
    });
}

fn runs(sizes: &[u16], seeds: usize, after: u32) -> Vec<Run> {
    let mut found = Vec::new();
    for &size in sizes {
        for mix in 0..=4 {
            for k in 0..seeds as u64 {
                let seed = (k + 1).wrapping_mul(0x0123_4567_89AB_CDEF);
                let count = u32::from(size) + after;
                found.push(Run {
                    seed,
                    size,
                    mix,
                    count,
                });
            }
        }
    }
    found
}

/// The first call that two digests disagree on: a digest that differs goes on differing.
fn first_difference(run: Run, library: fn(&Run) -> u64, capacity: usize) -> String {
    let differs = |count| {
        let prefix = Run { count, ..run };
        library(&prefix) != prefix.digest(&mut naive::Plan::new(capacity))
    };
    let (mut alike, mut differing) = (0, run.count);
    while differing - alike > 1 {
        let middle = alike + (differing - alike) / 2;
        if differs(middle) {
            differing = middle;
        } else {
            alike = middle;
        }
    }
    let mut plan = naive::Plan::new(capacity);
    Run {
        count: alike,
        ..run
    }
    .digest(&mut plan);
    let (call, count) = (run.call_at(alike), plan.count());
    let answer = plan.apply(call);
    format!("{run:?}\n  at call {alike}, with {count} blocks: {call:?}\n  expected: {answer:?}")
}

fn compare_calls(part: &mut Part, run: Run, library: fn(&Run) -> u64, capacity: usize) {
    let expected = run.digest(&mut naive::Plan::new(capacity));
    let alike = library(&run) == expected;
    part.check(alike, || first_difference(run, library, capacity));
}

const SIZES: [u16; 8] = [0, 1, 2, 5, 16, 60, 256, 300];

fn calls(name: &'static str, library: fn(&Run) -> u64, capacity: usize, scale: usize) -> Part {
    let mut part = Part::new(name);
    for run in runs(&SIZES, 4 * scale, 300) {
        compare_calls(&mut part, run, library, capacity);
    }
    for run in runs(&[16, 256], scale, 3000) {
        compare_calls(&mut part, run, library, capacity);
    }
    for count in 0..40 {
        let run = Run {
            seed: 5,
            size: 3,
            mix: 0,
            count,
        };
        compare_calls(&mut part, run, library, capacity);
    }
    part.print();
    part
}

/// Sizes at and above the rows that there are; few calls, since the naive plan is slow there.
fn large_trees(scale: usize) -> Part {
    let mut part = Part::new("calls on a large tree");
    for run in runs(&[1000, 4096, 5000], scale, 120) {
        compare_calls(&mut part, run, ffi::calls_on_tree, TREE_ROWS);
    }
    part.print();
    part
}

/// The fewest elements of a balanced tree of a depth.
fn fewest(depth: u8) -> u64 {
    let (mut here, mut next) = (0, 1);
    for _ in 0..depth {
        (here, next) = (next, here + next + 1);
    }
    here
}

fn depths(scale: usize) -> Part {
    let mut part = Part::new("depths");
    for run in runs(&[0, 1, 2, 5, 16, 60, 256, 1000, 4096, 5000], scale, 500) {
        let mut plan = PlainPlan::new(TREE_ROWS);
        run.digest(&mut plan);
        let (depth, n) = (ffi::depth_after(&run), u64::from(plan.count()));
        part.equal(depth, plan.depth(), || {
            format!("depth of {n} rows after {run:?}")
        });
        let bounded = depth < 64 && fewest(depth) <= n && n < 1 << depth;
        part.check(bounded, || {
            format!("depth {depth} of {n} rows after {run:?}")
        });
    }
    part.print();
    part
}

/// The rivals of the benchmark do the same work, or it would say nothing.
fn rivals(scale: usize) -> Part {
    fn on_tree(run: &Run) -> u64 {
        run.digest(&mut PlainPlan::new(TREE_ROWS))
    }
    fn on_array(run: &Run) -> u64 {
        run.digest(&mut ArrayPlan::new(TREE_ROWS))
    }
    fn on_moves_alone(run: &Run) -> u64 {
        run.digest(&mut ArrayPlan::of_moves_alone(TREE_ROWS))
    }
    let mut part = Part::new("plain tree and arrays");
    let mut all = runs(&SIZES, scale, 300);
    all.extend(runs(&[4096, 5000], 1, 120));
    for run in all {
        for rival in [on_tree, on_array, on_moves_alone] {
            compare_calls(&mut part, run, rival, TREE_ROWS);
        }
    }
    part.print();
    part
}
