//! A plan over a balanced tree in ordinary Rust: the library's algorithm with nothing proved, every index checked when
//! it is used, and rows in a `Vec`.
use crate::block::{check_move, check_percent, check_position, Block, MOST_START};
use crate::calls::{Extent, Layer, Move, Planner, Refusal};
use std::cmp::Ordering;

const NO_PLACE: Refusal = Refusal::NoPlace(Layer::Sequence);
const NO_RANGE: Refusal = Refusal::NoPlace(Layer::Plan);

/// What a range of blocks does to a squared speed: the most that it lets through, and the most that it adds.
#[derive(Clone, Copy)]
struct SpeedRun {
    cap: u32,
    change: u32,
}

impl SpeedRun {
    const UNIT: SpeedRun = SpeedRun {
        cap: u32::MAX,
        change: 0,
    };

    /// This run and then the next, in the direction of travel of the speed.
    fn then(self, next: SpeedRun) -> SpeedRun {
        SpeedRun {
            cap: next.cap.min(self.cap.saturating_add(next.change)),
            change: self.change.saturating_add(next.change),
        }
    }

    fn through(self, speed: u32) -> u32 {
        self.cap.min(speed.saturating_add(self.change))
    }
}

#[derive(Clone, Copy)]
struct Summary {
    up: SpeedRun,
    down: SpeedRun,
    extent: Extent,
    span: u32,
}

impl Summary {
    const UNIT: Summary = Summary {
        up: SpeedRun::UNIT,
        down: SpeedRun::UNIT,
        extent: Extent {
            least: [i32::MAX; 3],
            greatest: [i32::MIN; 3],
        },
        span: 0,
    };

    fn of(block: &Block) -> Summary {
        let (own, corner, change) = (block.own_cap(), block.corner_cap(), block.change());
        Summary {
            up: SpeedRun {
                cap: own.min(corner),
                change,
            },
            down: SpeedRun {
                cap: own.min(corner.saturating_add(change)),
                change,
            },
            extent: Extent {
                least: block.target,
                greatest: block.target,
            },
            span: block.length,
        }
    }

    fn join(&self, after: &Summary) -> Summary {
        Summary {
            up: self.up.then(after.up),
            down: after.down.then(self.down),
            extent: join_extents(&self.extent, &after.extent),
            span: self.span.saturating_add(after.span),
        }
    }
}

fn join_extents(a: &Extent, b: &Extent) -> Extent {
    Extent {
        least: std::array::from_fn(|axis| a.least[axis].min(b.least[axis])),
        greatest: std::array::from_fn(|axis| a.greatest[axis].max(b.greatest[axis])),
    }
}

/// One block, over the rows to its left and right; summary, depth and count are those of all rows from it down.
struct Row {
    block: Block,
    summary: Summary,
    left: Option<u16>,
    right: Option<u16>,
    depth: u8,
    count: u16,
}

struct Tree {
    rows: Vec<Row>,
    capacity: usize,
    top: Option<u16>,
    /// Rows that were given back, each with the next in `left`.
    free: Option<u16>,
}

impl Tree {
    fn new(capacity: usize) -> Tree {
        Tree {
            rows: Vec::with_capacity(capacity),
            capacity,
            top: None,
            free: None,
        }
    }

    fn row(&self, p: u16) -> &Row {
        &self.rows[usize::from(p)]
    }

    fn row_mut(&mut self, p: u16) -> &mut Row {
        &mut self.rows[usize::from(p)]
    }

    fn count_of(&self, side: Option<u16>) -> u16 {
        side.map_or(0, |p| self.row(p).count)
    }

    fn depth_of(&self, side: Option<u16>) -> u8 {
        side.map_or(0, |p| self.row(p).depth)
    }

    fn count(&self) -> u16 {
        self.count_of(self.top)
    }

    fn is_full(&self) -> bool {
        usize::from(self.count()) == self.capacity
    }

    fn take_row(&mut self, block: Block) -> u16 {
        let row = Row {
            summary: Summary::of(&block),
            block,
            left: None,
            right: None,
            depth: 1,
            count: 1,
        };
        match self.free {
            Some(p) => {
                self.free = self.row(p).left;
                *self.row_mut(p) = row;
                p
            }
            None => {
                self.rows.push(row);
                (self.rows.len() - 1) as u16
            }
        }
    }

    fn release(&mut self, p: u16) {
        self.row_mut(p).left = self.free;
        self.free = Some(p);
    }

    fn refresh(&mut self, p: u16) {
        let row = self.row(p);
        let (mut summary, mut depth, mut count) = (Summary::of(&row.block), 0, 1);
        if let Some(left) = row.left.map(|q| self.row(q)) {
            summary = left.summary.join(&summary);
            depth = left.depth;
            count += left.count;
        }
        if let Some(right) = row.right.map(|q| self.row(q)) {
            summary = summary.join(&right.summary);
            depth = depth.max(right.depth);
            count += right.count;
        }
        let row = self.row_mut(p);
        row.summary = summary;
        row.depth = depth + 1;
        row.count = count;
    }

    /// Turns the left row `q` of `p` up over it.
    fn rotate_right(&mut self, p: u16, q: u16) -> u16 {
        self.row_mut(p).left = self.row(q).right;
        self.row_mut(q).right = Some(p);
        self.refresh(p);
        self.refresh(q);
        q
    }

    fn rotate_left(&mut self, p: u16, q: u16) -> u16 {
        self.row_mut(p).right = self.row(q).left;
        self.row_mut(q).left = Some(p);
        self.refresh(p);
        self.refresh(q);
        q
    }

    /// Balances and refreshes the row at `p`, whose sides are balanced, and tells the row that now stands there.
    fn rebalance(&mut self, p: u16) -> u16 {
        let (left, right) = (self.row(p).left, self.row(p).right);
        match (left, right) {
            (Some(q), _) if self.row(q).depth > self.depth_of(right) + 1 => self.lean_right(p, q),
            (_, Some(q)) if self.row(q).depth > self.depth_of(left) + 1 => self.lean_left(p, q),
            _ => {
                self.refresh(p);
                p
            }
        }
    }

    fn lean_right(&mut self, p: u16, q: u16) -> u16 {
        let (outer, inner) = (self.row(q).left, self.row(q).right);
        let mut top = q;
        if let Some(s) = inner.filter(|&s| self.row(s).depth > self.depth_of(outer)) {
            top = self.rotate_left(q, s);
        }
        self.rotate_right(p, top)
    }

    fn lean_left(&mut self, p: u16, q: u16) -> u16 {
        let (inner, outer) = (self.row(q).left, self.row(q).right);
        let mut top = q;
        if let Some(s) = inner.filter(|&s| self.row(s).depth > self.depth_of(outer)) {
            top = self.rotate_right(q, s);
        }
        self.rotate_left(p, top)
    }

    fn insert(&mut self, i: u16, block: Block) {
        let fresh = self.take_row(block);
        self.top = Some(self.insert_below(self.top, i, fresh));
    }

    fn insert_below(&mut self, side: Option<u16>, i: u16, fresh: u16) -> u16 {
        let Some(p) = side else { return fresh };
        let (left, right) = (self.row(p).left, self.row(p).right);
        let before = self.count_of(left);
        if i <= before {
            self.row_mut(p).left = Some(self.insert_below(left, i, fresh));
        } else {
            self.row_mut(p).right = Some(self.insert_below(right, i - before - 1, fresh));
        }
        self.rebalance(p)
    }

    fn delete(&mut self, i: u16) {
        if let Some(p) = self.top {
            self.top = self.delete_below(p, i);
        }
    }

    /// Takes out the row at place `i` from `p` down, and tells what stands there then.
    fn delete_below(&mut self, p: u16, i: u16) -> Option<u16> {
        let (left, right) = (self.row(p).left, self.row(p).right);
        let before = self.count_of(left);
        match (i.cmp(&before), left, right) {
            (Ordering::Less, Some(q), _) => {
                self.row_mut(p).left = self.delete_below(q, i);
                Some(self.rebalance(p))
            }
            (Ordering::Greater, _, Some(q)) => {
                self.row_mut(p).right = self.delete_below(q, i - before - 1);
                Some(self.rebalance(p))
            }
            _ => {
                self.release(p);
                self.merge(left, right)
            }
        }
    }

    fn merge(&mut self, left: Option<u16>, right: Option<u16>) -> Option<u16> {
        let Some(q) = right else { return left };
        let (first, rest) = self.split_first(q);
        self.row_mut(first).left = left;
        self.row_mut(first).right = rest;
        Some(self.rebalance(first))
    }

    /// The first row from `p` down, and the rest.
    fn split_first(&mut self, p: u16) -> (u16, Option<u16>) {
        let Some(q) = self.row(p).left else {
            return (p, self.row(p).right);
        };
        let (first, rest) = self.split_first(q);
        self.row_mut(p).left = rest;
        (first, Some(self.rebalance(p)))
    }

    /// Alters the block at place `i` from `side` down; where there is no such place, nothing.
    fn update(&mut self, side: Option<u16>, i: u16, change: impl Fn(&mut Block) + Copy) {
        let Some(p) = side else { return };
        let before = self.count_of(self.row(p).left);
        match i.cmp(&before) {
            Ordering::Less => self.update(self.row(p).left, i, change),
            Ordering::Greater => self.update(self.row(p).right, i - before - 1, change),
            Ordering::Equal => change(&mut self.row_mut(p).block),
        }
        self.refresh(p);
    }

    fn get(&self, mut i: u16) -> Option<&Block> {
        let mut side = self.top;
        while let Some(p) = side {
            let row = self.row(p);
            let before = self.count_of(row.left);
            match i.cmp(&before) {
                Ordering::Less => side = row.left,
                Ordering::Greater => {
                    side = row.right;
                    i -= before + 1;
                }
                Ordering::Equal => return Some(&row.block),
            }
        }
        None
    }

    /// The summary of the blocks from `i` up to but without `j`, counted from `side` down.
    fn range_join(&self, side: Option<u16>, i: u16, j: u16) -> Summary {
        let Some(p) = side else { return Summary::UNIT };
        let row = self.row(p);
        if i == 0 && j == row.count {
            return row.summary;
        }
        let before = self.count_of(row.left);
        if j <= before {
            return self.range_join(row.left, i, j);
        }
        if i > before {
            return self.range_join(row.right, i - before - 1, j - before - 1);
        }
        let front = self.range_join(row.left, i, before);
        let back = self.range_join(row.right, 0, j - before - 1);
        front.join(&Summary::of(&row.block)).join(&back)
    }
}

pub struct PlainPlan {
    start: [i32; 3],
    tree: Tree,
}

impl PlainPlan {
    pub fn new(capacity: usize) -> PlainPlan {
        PlainPlan {
            start: [0, 0, 0],
            tree: Tree::new(capacity),
        }
    }

    pub fn depth(&self) -> u8 {
        self.tree.depth_of(self.tree.top)
    }

    pub fn count(&self) -> u16 {
        self.tree.count()
    }

    fn begin_of(&self, i: u16) -> Result<[i32; 3], Refusal> {
        if i == 0 {
            return Ok(self.start);
        }
        let before = self.tree.get(i - 1).ok_or(NO_PLACE)?;
        Ok(before.target)
    }

    fn begin_again(&mut self, i: u16, begin: [i32; 3]) {
        if i < self.count() {
            self.tree
                .update(self.tree.top, i, |block| *block = block.begun_at(begin));
        }
    }

    fn check_range(&self, i: u16, j: u16) -> Result<(), Refusal> {
        if i > j || j > self.count() {
            return Err(NO_RANGE);
        }
        Ok(())
    }

    fn range_join(&self, i: u16, j: u16) -> Summary {
        self.tree.range_join(self.tree.top, i, j)
    }

    fn greatest_start(&self, m: u16) -> u32 {
        let own_cap = self.tree.get(m).map_or(0, Block::own_cap);
        self.range_join(0, m).down.through(own_cap)
    }

    fn first_blocked(&self, s: u32) -> u16 {
        let (mut low, mut high) = (0, self.count());
        while low < high {
            let middle = low + (high - low) / 2;
            if s <= self.greatest_start(middle) {
                low = middle + 1;
            } else {
                high = middle;
            }
        }
        low
    }
}

impl Planner for PlainPlan {
    fn insert(&mut self, i: u16, m: Move) -> Result<(), Refusal> {
        check_move(&m)?;
        let begin = self.begin_of(i)?;
        if self.tree.is_full() {
            return Err(Refusal::Full);
        }
        self.tree.insert(i, Block::new(begin, m));
        self.begin_again(i + 1, m.target);
        Ok(())
    }

    fn replace(&mut self, i: u16, m: Move) -> Result<(), Refusal> {
        check_move(&m)?;
        if i >= self.count() {
            return Err(NO_PLACE);
        }
        let fresh = Block::new(self.begin_of(i)?, m);
        self.tree.update(self.tree.top, i, |block| *block = fresh);
        self.begin_again(i + 1, m.target);
        Ok(())
    }

    fn delete(&mut self, i: u16) -> Result<(), Refusal> {
        if i >= self.count() {
            return Err(NO_PLACE);
        }
        let begin = self.begin_of(i)?;
        self.tree.delete(i);
        self.begin_again(i, begin);
        Ok(())
    }

    fn set_override(&mut self, i: u16, j: u16, percent: u8) -> Result<(), Refusal> {
        check_percent(percent)?;
        self.check_range(i, j)?;
        for k in i..j {
            self.tree
                .update(self.tree.top, k, |block| block.percent = percent);
        }
        Ok(())
    }

    fn start(&mut self, position: [i32; 3]) -> Result<(), Refusal> {
        check_position(position)?;
        self.start = position;
        self.begin_again(0, position);
        Ok(())
    }

    fn junction(&mut self, j: u16, s: u32) -> Result<u32, Refusal> {
        if s > MOST_START {
            return Err(Refusal::Speed);
        }
        let count = self.count();
        if j > count {
            return Err(NO_RANGE);
        }
        if s > self.range_join(0, count).down.through(0) {
            return Err(Refusal::Blocked(self.first_blocked(s)));
        }
        let risen = self.range_join(0, j).up.through(s);
        Ok(risen.min(self.range_join(j, count).down.through(0)))
    }

    fn reach(&mut self, i: u16, j: u16) -> Result<Option<Extent>, Refusal> {
        self.check_range(i, j)?;
        Ok((i < j).then(|| self.range_join(i, j).extent))
    }

    fn span(&mut self, i: u16, j: u16) -> Result<u32, Refusal> {
        self.check_range(i, j)?;
        Ok(self.range_join(i, j).span)
    }
}
