//! The plan as its rules read: a list of moves, each with its override, and nothing kept besides. Every question works
//! out all blocks, all caps and both passes anew.
use crate::calls::{Extent, Layer, Move, Planner, Refusal};

const NO_PLACE: Refusal = Refusal::NoPlace(Layer::Sequence);
const NO_RANGE: Refusal = Refusal::NoPlace(Layer::Plan);

pub struct Plan {
    start: [i32; 3],
    moves: Vec<(Move, u8)>,
    capacity: usize,
}

/// What the passes need of a block. The squared speed rises and falls by the same change.
struct Figures {
    change: u64,
    own_cap: u64,
    corner_cap: u64,
}

impl Plan {
    pub fn new(capacity: usize) -> Plan {
        Plan {
            start: [0, 0, 0],
            moves: Vec::new(),
            capacity,
        }
    }

    pub fn count(&self) -> usize {
        self.moves.len()
    }

    fn place(&self, i: u16) -> Result<usize, Refusal> {
        let i = usize::from(i);
        if i < self.moves.len() {
            Ok(i)
        } else {
            Err(NO_PLACE)
        }
    }

    fn range(&self, i: u16, j: u16) -> Result<std::ops::Range<usize>, Refusal> {
        let (i, j) = (usize::from(i), usize::from(j));
        if i > j || j > self.moves.len() {
            return Err(NO_RANGE);
        }
        Ok(i..j)
    }

    fn begin(&self, i: usize) -> [i32; 3] {
        if i == 0 {
            self.start
        } else {
            self.moves[i - 1].0.target
        }
    }

    fn length(&self, i: usize) -> u64 {
        let (from, to) = (self.begin(i), self.moves[i].0.target);
        let dx = i64::from(to[0]) - i64::from(from[0]);
        let dy = i64::from(to[1]) - i64::from(from[1]);
        whole_root((dx * dx + dy * dy) as u64)
    }

    fn figures(&self, i: usize) -> Figures {
        let (m, percent) = self.moves[i];
        let speed = (u64::from(m.feed) * u64::from(percent) / 100).max(1);
        Figures {
            change: 2 * u64::from(m.acceleration) * self.length(i),
            own_cap: speed * speed,
            corner_cap: u64::from(m.corner) * u64::from(m.corner),
        }
    }
}

/// The greatest whole number whose square is at most `n`, found by halving.
fn whole_root(n: u64) -> u64 {
    let (mut low, mut high) = (0, 1 << 32);
    while high - low > 1 {
        let middle = (low + high) / 2;
        if middle * middle <= n {
            low = middle;
        } else {
            high = middle;
        }
    }
    low
}

fn check_position(p: [i32; 3]) -> Result<(), Refusal> {
    let most = [100_000, 100_000, 10_000];
    for axis in 0..3 {
        if p[axis] < -most[axis] || p[axis] > most[axis] {
            return Err(Refusal::Coordinate);
        }
    }
    Ok(())
}

fn check_move(m: Move) -> Result<(), Refusal> {
    check_position(m.target)?;
    let fits =
        (1..=2000).contains(&m.acceleration) && (1..=5000).contains(&m.feed) && m.corner <= 10_000;
    if fits {
        Ok(())
    } else {
        Err(Refusal::Rate)
    }
}

fn junction_cap(blocks: &[Figures], j: usize) -> u64 {
    if j == blocks.len() {
        0
    } else if j == 0 {
        blocks[0].own_cap
    } else {
        let before = &blocks[j - 1];
        before.own_cap.min(before.corner_cap).min(blocks[j].own_cap)
    }
}

fn reverse_pass(blocks: &[Figures], caps: &[u64]) -> Vec<u64> {
    let mut speeds = caps.to_vec();
    for j in (0..blocks.len()).rev() {
        speeds[j] = caps[j].min(speeds[j + 1] + blocks[j].change);
    }
    speeds
}

fn forward_pass(blocks: &[Figures], reverse: &[u64], s: u64) -> Vec<u64> {
    let mut speeds = vec![s];
    for (j, block) in blocks.iter().enumerate() {
        speeds.push(reverse[j + 1].min(speeds[j] + block.change));
    }
    speeds
}

/// Whether a lawful profile up to junction `m` starts at `s`, by the definition: the speeds that lawful profiles can
/// have at a junction are all those from a least to a greatest, and there is a profile while there is such a speed.
fn lawful_profile_exists(blocks: &[Figures], caps: &[u64], m: usize, s: u64) -> bool {
    let (mut least, mut greatest) = (s, s.min(caps[0]));
    for j in 0..m {
        if least > greatest {
            return false;
        }
        least = least.saturating_sub(blocks[j].change);
        greatest = caps[j + 1].min(greatest + blocks[j].change);
    }
    least <= greatest
}

impl Planner for Plan {
    fn insert(&mut self, i: u16, m: Move) -> Result<(), Refusal> {
        check_move(m)?;
        let i = usize::from(i);
        if i > self.moves.len() {
            return Err(NO_PLACE);
        }
        if self.moves.len() == self.capacity {
            return Err(Refusal::Full);
        }
        self.moves.insert(i, (m, 100));
        Ok(())
    }

    fn replace(&mut self, i: u16, m: Move) -> Result<(), Refusal> {
        check_move(m)?;
        let i = self.place(i)?;
        self.moves[i] = (m, 100);
        Ok(())
    }

    fn delete(&mut self, i: u16) -> Result<(), Refusal> {
        let i = self.place(i)?;
        self.moves.remove(i);
        Ok(())
    }

    fn set_override(&mut self, i: u16, j: u16, percent: u8) -> Result<(), Refusal> {
        if !(10..=200).contains(&percent) {
            return Err(Refusal::Override);
        }
        for k in self.range(i, j)? {
            self.moves[k].1 = percent;
        }
        Ok(())
    }

    fn start(&mut self, position: [i32; 3]) -> Result<(), Refusal> {
        check_position(position)?;
        self.start = position;
        Ok(())
    }

    fn junction(&mut self, j: u16, s: u32) -> Result<u32, Refusal> {
        if s > 100_000_000 {
            return Err(Refusal::Speed);
        }
        let (j, s, n) = (usize::from(j), u64::from(s), self.moves.len());
        if j > n {
            return Err(NO_RANGE);
        }
        let blocks: Vec<Figures> = (0..n).map(|i| self.figures(i)).collect();
        let caps: Vec<u64> = (0..=n).map(|k| junction_cap(&blocks, k)).collect();
        let reverse = reverse_pass(&blocks, &caps);
        if s > reverse[0] {
            let blocked = (0..=n).find(|&m| !lawful_profile_exists(&blocks, &caps, m, s));
            let m = blocked
                .expect("the reverse pass finds no profile, so some junction is out of reach");
            return Err(Refusal::Blocked(m as u16));
        }
        Ok(forward_pass(&blocks, &reverse, s)[j] as u32)
    }

    fn reach(&mut self, i: u16, j: u16) -> Result<Option<Extent>, Refusal> {
        let mut told: Option<Extent> = None;
        for k in self.range(i, j)? {
            let target = self.moves[k].0.target;
            let mut extent = told.unwrap_or(Extent {
                least: target,
                greatest: target,
            });
            for (axis, &coordinate) in target.iter().enumerate() {
                extent.least[axis] = extent.least[axis].min(coordinate);
                extent.greatest[axis] = extent.greatest[axis].max(coordinate);
            }
            told = Some(extent);
        }
        Ok(told)
    }

    fn span(&mut self, i: u16, j: u16) -> Result<u32, Refusal> {
        let total: u64 = self.range(i, j)?.map(|k| self.length(k)).sum();
        Ok(total.min(u64::from(u32::MAX)) as u32)
    }
}
