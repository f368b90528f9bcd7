//! The usual way: blocks side by side, and both passes redone over all of them at each question, as Grbl's planner does.
//! The lengths of the blocks are kept between questions, or worked out anew as well.
use crate::block::{check_move, check_percent, check_position, Block, MOST_START};
use crate::calls::{Extent, Layer, Move, Planner, Refusal};
use std::ops::Range;

const NO_PLACE: Refusal = Refusal::NoPlace(Layer::Sequence);
const NO_RANGE: Refusal = Refusal::NoPlace(Layer::Plan);

pub struct ArrayPlan {
    start: [i32; 3],
    blocks: Vec<Block>,
    /// One more than there are blocks; first the caps of the junctions, and after both passes the speeds.
    speeds: Vec<u32>,
    capacity: usize,
    keeps_lengths: bool,
}

impl ArrayPlan {
    /// All memory is asked for here, so that no call allocates.
    pub fn new(capacity: usize) -> ArrayPlan {
        ArrayPlan {
            start: [0, 0, 0],
            blocks: Vec::with_capacity(capacity),
            speeds: Vec::with_capacity(capacity + 1),
            capacity,
            keeps_lengths: true,
        }
    }

    /// A plan that keeps its moves and nothing that follows from them: each question works out all of it.
    pub fn of_moves_alone(capacity: usize) -> ArrayPlan {
        ArrayPlan {
            keeps_lengths: false,
            ..ArrayPlan::new(capacity)
        }
    }

    fn place(&self, i: u16) -> Result<usize, Refusal> {
        let i = usize::from(i);
        if i < self.blocks.len() {
            Ok(i)
        } else {
            Err(NO_PLACE)
        }
    }

    fn range(&self, i: u16, j: u16) -> Result<Range<usize>, Refusal> {
        let range = usize::from(i)..usize::from(j);
        if range.start > range.end || range.end > self.blocks.len() {
            return Err(NO_RANGE);
        }
        Ok(range)
    }

    fn begin_of(&self, i: usize) -> [i32; 3] {
        match i {
            0 => self.start,
            _ => self.blocks[i - 1].target,
        }
    }

    fn begin_again(&mut self, i: usize) {
        let begin = self.begin_of(i.min(self.blocks.len()));
        if let Some(block) = self.blocks.get_mut(i) {
            *block = block.begun_at(begin);
        }
    }

    fn lay_anew(&mut self) {
        let mut begin = self.start;
        for block in &mut self.blocks {
            *block = block.begun_at(begin);
            begin = block.target;
        }
    }

    /// The caps of the junctions, as bounds of the speeds.
    fn set_caps(&mut self) {
        self.speeds.clear();
        let mut before = u32::MAX;
        for block in &self.blocks {
            let own = block.own_cap();
            self.speeds.push(before.min(own));
            before = own.min(block.corner_cap());
        }
        self.speeds.push(0);
    }

    fn reverse_pass(&mut self) {
        let mut next = 0;
        for (speed, block) in self.speeds.iter_mut().zip(&self.blocks).rev() {
            next = (*speed).min(next + block.change());
            *speed = next;
        }
    }

    fn forward_pass(&mut self, start: u32) {
        self.speeds[0] = start;
        let mut last = start;
        for (speed, block) in self.speeds[1..].iter_mut().zip(&self.blocks) {
            last = (*speed).min(last + block.change());
            *speed = last;
        }
    }

    /// The least junction where every speed that can be braked to from the start is above the cap.
    fn first_blocked(&mut self, start: u32) -> u16 {
        self.set_caps();
        let mut slowest = start;
        for (j, block) in self.blocks.iter().enumerate() {
            if slowest > self.speeds[j] {
                return j as u16;
            }
            slowest = slowest.saturating_sub(block.change());
        }
        self.blocks.len() as u16
    }
}

impl Planner for ArrayPlan {
    fn insert(&mut self, i: u16, m: Move) -> Result<(), Refusal> {
        check_move(&m)?;
        let i = usize::from(i);
        if i > self.blocks.len() {
            return Err(NO_PLACE);
        }
        if self.blocks.len() == self.capacity {
            return Err(Refusal::Full);
        }
        self.blocks.insert(i, Block::new(self.begin_of(i), m));
        self.begin_again(i + 1);
        Ok(())
    }

    fn replace(&mut self, i: u16, m: Move) -> Result<(), Refusal> {
        check_move(&m)?;
        let i = self.place(i)?;
        self.blocks[i] = Block::new(self.begin_of(i), m);
        self.begin_again(i + 1);
        Ok(())
    }

    fn delete(&mut self, i: u16) -> Result<(), Refusal> {
        let i = self.place(i)?;
        self.blocks.remove(i);
        self.begin_again(i);
        Ok(())
    }

    fn set_override(&mut self, i: u16, j: u16, percent: u8) -> Result<(), Refusal> {
        check_percent(percent)?;
        let range = self.range(i, j)?;
        for block in &mut self.blocks[range] {
            block.percent = percent;
        }
        Ok(())
    }

    fn start(&mut self, position: [i32; 3]) -> Result<(), Refusal> {
        check_position(position)?;
        self.start = position;
        self.begin_again(0);
        Ok(())
    }

    fn junction(&mut self, j: u16, s: u32) -> Result<u32, Refusal> {
        if s > MOST_START {
            return Err(Refusal::Speed);
        }
        let j = usize::from(j);
        if j > self.blocks.len() {
            return Err(NO_RANGE);
        }
        if !self.keeps_lengths {
            self.lay_anew();
        }
        self.set_caps();
        self.reverse_pass();
        if s > self.speeds[0] {
            return Err(Refusal::Blocked(self.first_blocked(s)));
        }
        self.forward_pass(s);
        Ok(self.speeds[j])
    }

    fn reach(&mut self, i: u16, j: u16) -> Result<Option<Extent>, Refusal> {
        let targets = self.blocks[self.range(i, j)?].iter().map(|b| b.target);
        Ok(targets
            .map(|target| Extent {
                least: target,
                greatest: target,
            })
            .reduce(|a, b| Extent {
                least: std::array::from_fn(|axis| a.least[axis].min(b.least[axis])),
                greatest: std::array::from_fn(|axis| a.greatest[axis].max(b.greatest[axis])),
            }))
    }

    fn span(&mut self, i: u16, j: u16) -> Result<u32, Refusal> {
        let blocks = &self.blocks[self.range(i, j)?];
        Ok(blocks.iter().map(|block| block.length).sum())
    }
}
