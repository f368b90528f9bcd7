//! The calls of a plan and its answers as plain values, which every implementation here takes and gives.

#[derive(Clone, Copy, Debug, PartialEq, Eq)]
pub struct Move {
    pub target: [i32; 3],
    pub acceleration: u16,
    pub feed: u16,
    pub corner: u16,
}

#[derive(Clone, Copy, Debug, PartialEq, Eq)]
pub enum Call {
    Insert(u16, Move),
    Replace(u16, Move),
    Delete(u16),
    /// A range and a percentage.
    Override(u16, u16, u8),
    Start([i32; 3]),
    /// A junction and the squared speed at the start.
    Junction(u16, u32),
    Reach(u16, u16),
    Span(u16, u16),
}

#[derive(Clone, Copy, Debug, PartialEq, Eq)]
pub struct Extent {
    pub least: [i32; 3],
    pub greatest: [i32; 3],
}

#[derive(Clone, Copy, Debug, PartialEq, Eq)]
pub enum Layer {
    Sequence,
    Plan,
}

impl Layer {
    pub fn name(self) -> &'static str {
        match self {
            Layer::Sequence => "sequence",
            Layer::Plan => "plan",
        }
    }
}

#[derive(Clone, Copy, Debug, PartialEq, Eq)]
pub enum Refusal {
    NoPlace(Layer),
    Full,
    Coordinate,
    Rate,
    Override,
    Speed,
    /// The least junction up to which there is no lawful profile.
    Blocked(u16),
}

impl Refusal {
    pub fn number(self) -> u8 {
        match self {
            Refusal::NoPlace(_) => 1,
            Refusal::Full => 2,
            Refusal::Coordinate => 3,
            Refusal::Rate => 4,
            Refusal::Override => 5,
            Refusal::Speed => 7,
            Refusal::Blocked(_) => 8,
        }
    }

    pub fn layer(self) -> Layer {
        match self {
            Refusal::NoPlace(layer) => layer,
            Refusal::Full => Layer::Sequence,
            _ => Layer::Plan,
        }
    }

    pub fn junction(self) -> Option<u16> {
        match self {
            Refusal::Blocked(junction) => Some(junction),
            _ => None,
        }
    }
}

#[derive(Clone, Copy, Debug, PartialEq, Eq)]
pub enum Answer {
    Done,
    Speed(u32),
    Extent(Option<Extent>),
    Length(u32),
    Refused(Refusal),
}

impl Answer {
    pub fn edit(result: Result<(), Refusal>) -> Answer {
        match result {
            Ok(()) => Answer::Done,
            Err(why) => Answer::Refused(why),
        }
    }

    pub fn told<T>(result: Result<T, Refusal>, answer: fn(T) -> Answer) -> Answer {
        match result {
            Ok(value) => answer(value),
            Err(why) => Answer::Refused(why),
        }
    }
}

/// Anything that plans.
pub trait Planner {
    fn insert(&mut self, i: u16, m: Move) -> Result<(), Refusal>;
    fn replace(&mut self, i: u16, m: Move) -> Result<(), Refusal>;
    fn delete(&mut self, i: u16) -> Result<(), Refusal>;
    fn set_override(&mut self, i: u16, j: u16, percent: u8) -> Result<(), Refusal>;
    fn start(&mut self, position: [i32; 3]) -> Result<(), Refusal>;
    fn junction(&mut self, j: u16, s: u32) -> Result<u32, Refusal>;
    fn reach(&mut self, i: u16, j: u16) -> Result<Option<Extent>, Refusal>;
    fn span(&mut self, i: u16, j: u16) -> Result<u32, Refusal>;

    fn apply(&mut self, call: Call) -> Answer {
        match call {
            Call::Insert(i, m) => Answer::edit(self.insert(i, m)),
            Call::Replace(i, m) => Answer::edit(self.replace(i, m)),
            Call::Delete(i) => Answer::edit(self.delete(i)),
            Call::Override(i, j, percent) => Answer::edit(self.set_override(i, j, percent)),
            Call::Start(position) => Answer::edit(self.start(position)),
            Call::Junction(j, s) => Answer::told(self.junction(j, s), Answer::Speed),
            Call::Reach(i, j) => Answer::told(self.reach(i, j), Answer::Extent),
            Call::Span(i, j) => Answer::told(self.span(i, j), Answer::Length),
        }
    }
}
