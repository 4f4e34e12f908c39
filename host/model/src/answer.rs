//! The three services: 01's number, the two numbers returned, and the buffer after the call.

use crate::ast::Program;
use crate::check;
use crate::errors::{self, Error};
use crate::form::limit;
use crate::order;
use crate::read::read;
use crate::run;

#[derive(Debug, Clone, Copy, PartialEq, Eq)]
pub struct Answer {
    pub number: u64,
    pub first: u64,
    pub second: u64,
}

#[derive(Debug, Clone, Copy, PartialEq, Eq)]
pub enum Service {
    Check,
    Order,
    Expand,
}

pub const SERVICES: [Service; 3] = [Service::Check, Service::Order, Service::Expand];

/// An answer where there is room for everything, and the bytes that are then written.
#[derive(Debug, Clone, PartialEq, Eq)]
pub struct Full {
    pub answer: Answer,
    pub bytes: Vec<u8>,
}

impl Full {
    /// The answer in this much room: short room is looked at last, after every other refusal.
    pub fn within(&self, room: usize) -> Answer {
        match self.bytes.len() > room {
            true => Answer { number: 11, ..self.answer },
            false => self.answer,
        }
    }
}

/// What each service says of an image, in the order of `SERVICES`.
pub fn answers(image: &[u8]) -> [Full; 3] {
    let program = match read(image) {
        Ok(program) => program,
        Err(refusal) => return SERVICES.map(|_| refused(refusal.number.into(), refusal.offset as u64)),
    };
    let found = check::errors(&program);
    SERVICES.map(|service| service.of(&program, &found))
}

impl Service {
    /// Answers for an image, writing to `out` only where the answer is 0 or 1.
    pub fn answer(self, image: &[u8], out: &mut [u8]) -> Answer {
        let full = match read(image) {
            Ok(program) => self.of(&program, &check::errors(&program)),
            Err(refusal) => refused(refusal.number.into(), refusal.offset as u64),
        };
        if let Some(room) = out.get_mut(..full.bytes.len()) {
            room.copy_from_slice(&full.bytes);
        }
        full.within(out.len())
    }

    /// The answer for a program in which check found these errors.
    fn of(self, program: &Program, found: &[Error]) -> Full {
        match self {
            Service::Check => done(u64::from(!found.is_empty()), found.len(), errors::encode(found)),
            _ if !found.is_empty() => refused(8, 0),
            Service::Order => {
                let bytes: Vec<u8> = order::order(program).into_iter().map(|gate| gate as u8).collect();
                done(0, bytes.len(), bytes)
            }
            Service::Expand => expand(program),
        }
    }
}

fn expand(program: &Program) -> Full {
    let (quantum, classical) = run::totals(program);
    if quantum > limit::BITS || classical > limit::BITS {
        return refused(9, 0);
    }
    if run::count(program) > limit::ENTRIES {
        return refused(10, 0);
    }
    let entries = run::entries(program);
    done(0, entries.len(), entries.iter().flat_map(run::Entry::encode).collect())
}

fn refused(number: u64, first: u64) -> Full {
    Full { answer: Answer { number, first, second: 0 }, bytes: Vec::new() }
}

fn done(number: u64, items: usize, bytes: Vec<u8>) -> Full {
    Full { answer: Answer { number, first: items as u64, second: bytes.len() as u64 }, bytes }
}
