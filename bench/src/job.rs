//! Jobs as their rules read: the verdict on the bytes, and the text of a run on the naive plan.
use crate::calls::{Answer, Call, Move, Planner, Refusal};
use crate::naive::Plan;
use std::fmt::Write;

const CAPACITY: usize = 256;
const HEAD: usize = 3;
const END: u8 = 0x7F;

/// Why a job is refused as a whole: the number of the refusal, and the offset that it names.
#[derive(Clone, Copy, Debug, PartialEq, Eq)]
pub struct Fault {
    pub number: u8,
    pub offset: usize,
}

fn body_length(tag: u8) -> Option<usize> {
    match tag {
        0x01 | 0x07 => Some(20),
        0x02 => Some(2),
        0x03 => Some(5),
        0x04 => Some(6),
        0x08 => Some(12),
        END => Some(1),
        _ => None,
    }
}

/// The tag and the body of the field at `offset`.
fn field_at(job: &[u8], offset: usize) -> Result<(u8, &[u8]), Fault> {
    let fault = |number| Fault { number, offset };
    let [tag, high, low, rest @ ..] = &job[offset..] else {
        return Err(fault(10));
    };
    let length = body_length(*tag).ok_or(fault(11))?;
    if usize::from(u16::from_be_bytes([*high, *low])) != length {
        return Err(fault(12));
    }
    let body = rest.get(..length).ok_or(fault(10))?;
    Ok((*tag, body))
}

fn check_end(job: &[u8], offset: usize, byte: u8) -> Result<(), Fault> {
    let expected = job[..offset].iter().fold(0, |all, byte| all ^ byte);
    if byte != expected {
        return Err(Fault { number: 13, offset });
    }
    let after = offset + HEAD + 1;
    if after < job.len() {
        return Err(Fault {
            number: 14,
            offset: after,
        });
    }
    Ok(())
}

pub fn verdict(job: &[u8]) -> Result<(), Fault> {
    let mut offset = 0;
    loop {
        let (tag, body) = field_at(job, offset)?;
        if tag == END {
            return check_end(job, offset, body[0]);
        }
        offset += HEAD + body.len();
    }
}

fn be_u16(bytes: &[u8], at: usize) -> u16 {
    u16::from_be_bytes([bytes[at], bytes[at + 1]])
}

fn be_u32(bytes: &[u8], at: usize) -> u32 {
    u32::from(be_u16(bytes, at)) << 16 | u32::from(be_u16(bytes, at + 2))
}

fn position(bytes: &[u8]) -> [i32; 3] {
    [0, 4, 8].map(|at| be_u32(bytes, at) as i32)
}

fn move_of(bytes: &[u8]) -> Move {
    Move {
        target: position(bytes),
        acceleration: be_u16(bytes, 12),
        feed: be_u16(bytes, 14),
        corner: be_u16(bytes, 16),
    }
}

fn call_of(tag: u8, body: &[u8]) -> Call {
    match tag {
        0x01 => Call::Insert(be_u16(body, 0), move_of(&body[2..])),
        0x07 => Call::Replace(be_u16(body, 0), move_of(&body[2..])),
        0x02 => Call::Delete(be_u16(body, 0)),
        0x03 => Call::Override(be_u16(body, 0), be_u16(body, 2), body[4]),
        0x04 => Call::Junction(be_u16(body, 0), be_u32(body, 2)),
        0x08 => Call::Start(position(body)),
        _ => unreachable!("only an end field has another tag"),
    }
}

fn write_refusal(text: &mut String, why: Refusal, offset: usize) {
    let (number, layer) = (why.number(), why.layer().name());
    write!(text, "refused {number} {layer} {offset}").expect("a string takes all text");
    if let Some(junction) = why.junction() {
        write!(text, " junction {junction}").expect("a string takes all text");
    }
    text.push('\n');
}

fn write_answer(text: &mut String, answer: Answer, offset: usize) {
    match answer {
        Answer::Done => text.push_str("ok\n"),
        Answer::Speed(speed) => writeln!(text, "v {speed}").expect("a string takes all text"),
        Answer::Refused(why) => write_refusal(text, why, offset),
        Answer::Extent(_) | Answer::Length(_) => unreachable!("no field asks for these"),
    }
}

/// What a run of the job prints.
pub fn text(job: &[u8]) -> String {
    if let Err(Fault { number, offset }) = verdict(job) {
        return format!("refused {number} job {offset}\n");
    }
    let (mut plan, mut text, mut offset) = (Plan::new(CAPACITY), String::new(), 0);
    while let Ok((tag, body)) = field_at(job, offset) {
        if tag == END {
            break;
        }
        write_answer(&mut text, plan.apply(call_of(tag, body)), offset);
        offset += HEAD + body.len();
    }
    text
}
