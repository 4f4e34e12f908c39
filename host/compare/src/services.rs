//! The boundary as it is compared: whatever can answer for an image, a buffer to write to and the bytes of an answer.

use model::answer::{Answer, Service, SERVICES};

/// The bytes of an answer: 01's number and the two returned numbers, eight little-endian bytes each.
pub const ANSWER: usize = 24;

pub trait Services {
    /// Those that can be called.
    fn offered(&self) -> Vec<Service>;

    /// A call at the boundary. An `answer` of fewer than 24 bytes: nothing changes at all.
    fn call(&self, service: Service, image: &[u8], out: &mut [u8], answer: &mut [u8]);

    /// A call, its answer as numbers.
    fn ask(&self, service: Service, image: &[u8], out: &mut [u8]) -> Answer {
        let mut bytes = [0; ANSWER];
        self.call(service, image, out, &mut bytes);
        numbers(&bytes)
    }
}

pub fn bytes(answer: &Answer) -> [u8; ANSWER] {
    let mut bytes = [0; ANSWER];
    for (place, number) in bytes.chunks_mut(8).zip([answer.number, answer.first, answer.second]) {
        place.copy_from_slice(&number.to_le_bytes());
    }
    bytes
}

pub fn numbers(bytes: &[u8; ANSWER]) -> Answer {
    let number = |at: usize| u64::from_le_bytes(bytes[at..at + 8].try_into().expect("eight bytes"));
    Answer { number: number(0), first: number(8), second: number(16) }
}

/// The model behind the same boundary, so that what compares can itself be tested.
pub struct Model;

impl Services for Model {
    fn offered(&self) -> Vec<Service> {
        SERVICES.to_vec()
    }

    fn call(&self, service: Service, image: &[u8], out: &mut [u8], answer: &mut [u8]) {
        if let Some(room) = answer.get_mut(..ANSWER) {
            room.copy_from_slice(&bytes(&service.answer(image, out)));
        }
    }
}
