//! A block with where it begins and its length kept in it, for the two rivals in speed.
use crate::calls::{Move, Refusal};

pub const MOST_START: u32 = 100_000_000;
pub const FULL_PERCENT: u8 = 100;

#[derive(Clone, Copy)]
pub struct Block {
    pub begin: [i32; 3],
    pub target: [i32; 3],
    pub acceleration: u16,
    pub feed: u16,
    pub corner: u16,
    pub percent: u8,
    pub length: u32,
}

fn length_between(p: [i32; 3], q: [i32; 3]) -> u32 {
    let dx = u64::from(q[0].abs_diff(p[0]));
    let dy = u64::from(q[1].abs_diff(p[1]));
    (dx * dx + dy * dy).isqrt() as u32
}

impl Block {
    pub fn new(begin: [i32; 3], m: Move) -> Block {
        Block {
            begin,
            target: m.target,
            acceleration: m.acceleration,
            feed: m.feed,
            corner: m.corner,
            percent: FULL_PERCENT,
            length: length_between(begin, m.target),
        }
    }

    pub fn begun_at(self, begin: [i32; 3]) -> Block {
        Block {
            begin,
            length: length_between(begin, self.target),
            ..self
        }
    }

    /// What the squared speed may rise or fall by along the block.
    pub fn change(&self) -> u32 {
        2 * u32::from(self.acceleration) * self.length
    }

    pub fn own_cap(&self) -> u32 {
        let speed = (u32::from(self.feed) * u32::from(self.percent) / 100).max(1);
        speed * speed
    }

    pub fn corner_cap(&self) -> u32 {
        u32::from(self.corner) * u32::from(self.corner)
    }
}

pub fn check_position(p: [i32; 3]) -> Result<(), Refusal> {
    let [x, y, z] = p.map(i32::unsigned_abs);
    if x <= 100_000 && y <= 100_000 && z <= 10_000 {
        Ok(())
    } else {
        Err(Refusal::Coordinate)
    }
}

pub fn check_move(m: &Move) -> Result<(), Refusal> {
    check_position(m.target)?;
    let rates_fit =
        (1..=2000).contains(&m.acceleration) && (1..=5000).contains(&m.feed) && m.corner <= 10_000;
    if rates_fit {
        Ok(())
    } else {
        Err(Refusal::Rate)
    }
}

pub fn check_percent(percent: u8) -> Result<(), Refusal> {
    if (10..=200).contains(&percent) {
        Ok(())
    } else {
        Err(Refusal::Override)
    }
}
