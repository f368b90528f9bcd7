//! Calls drawn from a seed, and the digest of what they are answered. The library draws the same ones by itself.
use crate::calls::{Answer, Call, Extent, Move, Planner, Refusal};

/// A run of drawn calls: the first `size` fill the plan, and the mix says what comes after them.
#[derive(Clone, Copy, Debug)]
pub struct Run {
    pub seed: u64,
    pub size: u16,
    pub mix: u8,
    pub count: u32,
}

fn draw(seed: u64, k: u32, salt: u8) -> u32 {
    let s = seed
        .wrapping_add(u64::from(k).wrapping_mul(0x9E37_79B9_7F4A_7C15))
        .wrapping_add(u64::from(salt).wrapping_mul(0xD1B5_4A32_D192_ED03));
    let v = s
        .wrapping_mul(6_364_136_223_846_793_005)
        .wrapping_add(1_442_695_040_888_963_407);
    let (high, low) = (v >> 32, v & 0xFFFF_FFFF);
    ((high * low) >> 16) as u32
}

fn below(seed: u64, k: u32, salt: u8, n: u32) -> u32 {
    draw(seed, k, salt) % n
}

fn move_at(seed: u64, k: u32) -> Move {
    let less = |salt, n| below(seed, k, salt, n);
    Move {
        target: [
            less(1, 10_001) as i32,
            less(2, 10_001) as i32,
            less(3, 201) as i32,
        ],
        acceleration: less(4, 2002) as u16,
        feed: 1 + less(5, 5000) as u16,
        corner: less(6, 3001) as u16,
    }
}

impl Run {
    pub fn call_at(&self, k: u32) -> Call {
        let Run {
            seed, size, mix, ..
        } = *self;
        if k < u32::from(size) {
            return Call::Insert(below(seed, k, 8, k + 1) as u16, move_at(seed, k));
        }
        let n = u32::from(size.max(1));
        let place = || below(seed, k, 8, n) as u16;
        let question = || Call::Junction(below(seed, k, 9, n) as u16, 0);
        match (mix, k % 4) {
            (1, 0 | 2) => Call::Replace(place(), move_at(seed, k)),
            (2, 0) => Call::Delete(place()),
            (2, 2) => Call::Insert(place(), move_at(seed, k)),
            (3, 0 | 2) => {
                let i = place();
                let percent = 10 + below(seed, k, 10, 191) as u8;
                Call::Override(i, i.saturating_add(64).min(size), percent)
            }
            (1..=3, _) => question(),
            _ => self.any_call(k),
        }
    }

    /// Every kind of call, at places up to two past the size, so that some are refused.
    fn any_call(&self, k: u32) -> Call {
        let less = |salt, n| below(self.seed, k, salt, n);
        let near = u32::from(self.size) + 2;
        let (i, j) = (less(8, near) as u16, less(9, near) as u16);
        match less(0, 12) {
            0 | 1 => Call::Insert(i, move_at(self.seed, k)),
            2 => Call::Replace(i, move_at(self.seed, k)),
            3 | 4 => Call::Delete(i),
            5 => Call::Override(i.min(j), i.max(j), less(10, 220) as u8),
            6 => Call::Start(move_at(self.seed, k).target),
            7 => Call::Reach(i, j),
            8 => Call::Span(i.min(j), i.max(j)),
            _ => Call::Junction(i, less(7, 4_000_000)),
        }
    }

    /// Makes the calls on a plan that was just opened, and tells the digest of the answers.
    pub fn digest(&self, plan: &mut impl Planner) -> u64 {
        (0..self.count).fold(0, |digest, k| {
            let code = code(plan.apply(self.call_at(k)));
            digest.wrapping_mul(1_099_511_628_211).wrapping_add(code)
        })
    }
}

fn code(answer: Answer) -> u64 {
    match answer {
        Answer::Done => 0,
        Answer::Speed(speed) => u64::from(speed),
        Answer::Length(length) => u64::from(length),
        Answer::Extent(None) => 1,
        Answer::Extent(Some(extent)) => extent_code(extent),
        Answer::Refused(why) => refusal_code(why),
    }
}

fn extent_code(extent: Extent) -> u64 {
    let least_first = (0..3).flat_map(|axis| [extent.least[axis], extent.greatest[axis]]);
    least_first.fold(0, |code, coordinate| {
        let above_least = (i64::from(coordinate) - i64::from(i32::MIN)) as u64;
        u64::wrapping_add(code.wrapping_mul(31), above_least)
    })
}

fn refusal_code(why: Refusal) -> u64 {
    let junction = why.junction().unwrap_or(0);
    (1 << 40) + (u64::from(why.number()) << 32) + u64::from(junction)
}
