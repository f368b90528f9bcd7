//! The plain Rust parts held against one another and against worked numbers, without the library.
use crate::array::ArrayPlan;
use crate::calls::{Call, Move, Planner};
use crate::job;
use crate::naive::Plan;
use crate::plain_tree::PlainPlan;
use crate::random_jobs::{braking_job, Random};
use crate::seeded::Run;
use std::collections::BTreeSet;

fn runs(sizes: &[u16], mixes: &[u8], seeds: u64, after: u32) -> Vec<Run> {
    let mut found = Vec::new();
    for &size in sizes {
        for &mix in mixes {
            for seed in 0..seeds {
                let count = u32::from(size) + after;
                found.push(Run {
                    seed,
                    size,
                    mix,
                    count,
                });
            }
        }
    }
    found
}

#[test]
fn rivals_answer_as_the_naive_plan() {
    for run in runs(&[0, 1, 2, 5, 16, 60, 256, 300], &[0, 1, 2, 3, 4], 12, 200) {
        let expected = run.digest(&mut Plan::new(256));
        assert_eq!(
            run.digest(&mut PlainPlan::new(256)),
            expected,
            "tree: {run:?}"
        );
        assert_eq!(
            run.digest(&mut ArrayPlan::new(256)),
            expected,
            "array: {run:?}"
        );
        assert_eq!(
            run.digest(&mut ArrayPlan::of_moves_alone(256)),
            expected,
            "moves alone: {run:?}"
        );
    }
}

/// The search for the first blocked junction is put to the test only where that junction lies deep.
#[test]
fn braking_jobs_are_blocked_everywhere() {
    let mut random = Random::new(8);
    let mut junctions = BTreeSet::new();
    for _ in 0..200 {
        let text = job::text(&braking_job(&mut random));
        let blocked = text
            .lines()
            .filter_map(|line| line.split_once(" junction "));
        junctions.extend(blocked.map(|(_, junction)| junction.parse::<u16>().expect("a number")));
    }
    assert!(junctions.len() > 150, "only {junctions:?}");
}

/// The worked plan of docs/profiles.md.
#[test]
fn worked_plan() {
    let m = |x, y, feed, corner| Move {
        target: [x, y, 0],
        acceleration: 100,
        feed,
        corner,
    };
    let mut plan = Plan::new(4);
    plan.apply(Call::Insert(0, m(3000, 4000, 2000, 600)));
    plan.apply(Call::Insert(1, m(3000, 4900, 2000, 500)));
    plan.apply(Call::Insert(2, m(9000, 4900, 1000, 0)));
    let mut speeds = |s: u32| -> Vec<_> { (0..4).map(|j| plan.junction(j, s)).collect() };
    assert_eq!(speeds(0), [0, 360_000, 250_000, 0].map(Ok));
    assert_eq!(speeds(1_360_000), [1_360_000, 360_000, 250_000, 0].map(Ok));
    assert!(speeds(1_360_001)
        .iter()
        .all(|told| told.is_err_and(|why| why.junction() == Some(1))));
}

#[test]
fn examples_print_what_they_must() {
    let folder = concat!(env!("CARGO_MANIFEST_DIR"), "/../examples");
    for name in ["cut", "first", "rink", "slips"] {
        let job = std::fs::read(format!("{folder}/{name}.job")).expect("an example");
        let expected = std::fs::read_to_string(format!("{folder}/{name}.out")).expect("its text");
        assert_eq!(job::text(&job), expected, "{name}");
    }
}
