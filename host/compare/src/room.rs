//! One call held to what it has to do: the answer, the bytes written, and every byte around them as it was.

use crate::services::{bytes, numbers, Services, ANSWER};
use model::answer::{Answer, Full, Service};
use std::fmt;

/// Canary bytes before and after what is lent.
const MARGIN: usize = 32;

/// No two neighbours are alike, so that a byte moved along shows too.
fn canary(at: usize) -> u8 {
    (at as u8).wrapping_mul(37) ^ 0xa5
}

/// The lengths of the two lent buffers.
#[derive(Debug, Clone, Copy, PartialEq, Eq)]
pub struct Room {
    pub out: usize,
    pub answer: usize,
}

/// How a call went astray.
#[derive(Debug, Clone, PartialEq, Eq)]
pub struct Astray {
    pub service: Service,
    pub room: Room,
    pub what: What,
}

#[derive(Debug, Clone, PartialEq, Eq)]
pub enum What {
    Answer {
        expected: Answer,
        found: Answer,
    },
    /// A byte of the answer's buffer that is not part of the answer, or of an answer's buffer that is too short.
    AnswerBytes {
        at: isize,
    },
    /// A byte of the output or beside it.
    Out {
        at: isize,
        expected: u8,
        found: u8,
    },
}

/// Lent buffers between canaries, kept from call to call.
#[derive(Default)]
pub struct Lender {
    out: Vec<u8>,
    answer: Vec<u8>,
    pub calls: u64,
}

impl Lender {
    /// Calls in this room and compares every byte, within and around.
    pub fn held(
        &mut self,
        services: &dyn Services,
        service: Service,
        image: &[u8],
        full: &Full,
        room: Room,
    ) -> Result<(), Astray> {
        self.calls += 1;
        fill(&mut self.out, room.out);
        fill(&mut self.answer, room.answer);
        let (out, answer) = (lent(&mut self.out), lent(&mut self.answer));
        services.call(service, image, out, answer);
        self.judge(full, room).map_err(|what| Astray { service, room, what })
    }

    fn judge(&self, full: &Full, room: Room) -> Result<(), What> {
        let (answer, written) = expected(full, room);
        if let Some(at) = strange(&self.answer, &answer) {
            let found =
                self.answer.get(MARGIN..MARGIN + answer.len()).and_then(|bytes| bytes.try_into().ok());
            return Err(match found.map(numbers) {
                Some(found) if found != full.within(room.out) => {
                    What::Answer { expected: full.within(room.out), found }
                }
                _ => What::AnswerBytes { at: at as isize - MARGIN as isize },
            });
        }
        match strange(&self.out, written) {
            None => Ok(()),
            Some(place) => {
                let at = place as isize - MARGIN as isize;
                let expected = written.get(place.wrapping_sub(MARGIN)).copied().unwrap_or(canary(place));
                Err(What::Out { at, expected, found: self.out[place] })
            }
        }
    }
}

/// What is written to each buffer: nothing where the answer does not fit its own.
fn expected(full: &Full, room: Room) -> (Vec<u8>, &[u8]) {
    if room.answer < ANSWER {
        return (Vec::new(), &[]);
    }
    let answer = full.within(room.out);
    let written: &[u8] = if answer.number <= 1 { &full.bytes } else { &[] };
    (bytes(&answer).to_vec(), written)
}

fn fill(buffer: &mut Vec<u8>, room: usize) {
    buffer.clear();
    buffer.extend((0..room + 2 * MARGIN).map(canary));
}

fn lent(buffer: &mut [u8]) -> &mut [u8] {
    let end = buffer.len() - MARGIN;
    &mut buffer[MARGIN..end]
}

/// The first place of a buffer that holds neither what was to be written nor the canary.
fn strange(buffer: &[u8], written: &[u8]) -> Option<usize> {
    let wanted = |at: usize| match at.checked_sub(MARGIN).and_then(|at| written.get(at)) {
        Some(byte) => *byte,
        None => canary(at),
    };
    (0..buffer.len()).find(|at| buffer[*at] != wanted(*at))
}

/// The lengths of an answer's buffer that are tried beside 24.
const ANSWERS: [usize; 3] = [23, 25, 40];

/// The rooms for an image that is one of many: the needed one, longer, short by one and by several, none. `turn` varies them.
pub fn rooms(full: &Full, turn: usize) -> Vec<Room> {
    let needed = full.bytes.len();
    let mut rooms = vec![Room { out: needed, answer: ANSWER }];
    let other = ANSWERS[turn % ANSWERS.len()];
    rooms.push(Room { out: needed + 1 + turn % 40, answer: other });
    if needed > 0 {
        let several = 2 + turn % 30;
        rooms.extend([needed - 1, needed.saturating_sub(several), 0].map(|out| Room { out, answer: ANSWER }));
    }
    if turn % 64 == 0 {
        rooms.extend(around(full));
    }
    rooms
}

/// Every length around the needed one, with each length of the answer's buffer.
pub fn around(full: &Full) -> Vec<Room> {
    let needed = full.bytes.len();
    let outs = needed.saturating_sub(20)..=needed + 20;
    outs.flat_map(|out| [ANSWER, 23, 25, 40].map(|answer| Room { out, answer })).collect()
}

/// Every length from none to past the needed one, and every length of the answer's buffer to past the needed one.
pub fn every(full: &Full) -> Vec<Room> {
    let needed = full.bytes.len();
    let outs = (0..=needed + 20).map(|out| Room { out, answer: ANSWER });
    outs.chain((0..=42).map(|answer| Room { out: needed, answer })).collect()
}

impl fmt::Display for Astray {
    fn fmt(&self, f: &mut fmt::Formatter) -> fmt::Result {
        let Room { out, answer } = self.room;
        write!(f, "{:?} with room for {out} bytes and {answer} of answer: ", self.service)?;
        match &self.what {
            What::Answer { expected, found } => {
                let words = |answer: &Answer| format!("{} {} {}", answer.number, answer.first, answer.second);
                write!(f, "answered {}, expected {}", words(found), words(expected))
            }
            What::AnswerBytes { at } => write!(f, "changed byte {at} of the answer's buffer"),
            What::Out { at, expected, found } => {
                write!(f, "byte {at} of the buffer is {found:02x}, expected {expected:02x}")
            }
        }
    }
}
