//! Images that are mostly refused: damaged copies, random bytes, all short ones, all short fields.

use crate::room::{every, Room};
use crate::tally::Tally;
use model::answer::Full;
use model::cases::cases;
use model::flatten::flatten;
use model::form::{limit, tag};
use model::generate::limits::limits;
use model::generate::{self, damaged, of_class, Rng, Size, CLASSES};

const TAGS: [u8; 13] = [1, 2, 3, 4, 5, 6, 16, 17, 18, 19, 20, 21, 22];

/// So many images from the seed: half damaged, a quarter random, the rest cut or made of fields at random.
pub fn generated(tally: &mut Tally, count: u64, seed: u64) {
    let mut rng = Rng::new(seed);
    for turn in 0..count {
        match turn % 8 {
            0 => tally.image(&random(&mut rng)),
            1 => tally.image(&random_fields(&mut rng)),
            2 => {
                // A cut image lies in the whole one: reading past its end would find what belongs there.
                let whole = flatten(&generate::program(&mut rng));
                tally.image(&whole[..rng.below(whole.len() + 1)]);
            }
            3 => tally.image(&damaged_in_every_way(&mut rng)),
            _ => {
                let image = flatten(&generate::program(&mut rng));
                tally.image(&damaged(&mut rng, image));
            }
        }
    }
}

/// 0 to 80 bytes, each at random.
fn random(rng: &mut Rng) -> Vec<u8> {
    (0..rng.below(81)).map(|_| rng.draw() as u8).collect()
}

/// Fields of 01's tags with payloads of about the right length, mostly of small numbers, after some names.
fn random_fields(rng: &mut Rng) -> Vec<u8> {
    let mut image: Vec<u8> = (0..rng.below(4) as u8).flat_map(|name| [tag::NAME, 1, 0, name]).collect();
    for _ in 0..rng.between(1, 5) {
        let tag = *rng.pick(&TAGS);
        let length = *rng.pick(&[0, 5, 6, 12, 13, 19, 31, 34]) + usize::from(rng.chance(6));
        image.extend([tag, length as u8, 0]);
        image.extend((0..length).map(|_| if rng.chance(12) { rng.draw() as u8 } else { rng.below(2) as u8 }));
    }
    image
}

/// A small image damaged several times over.
fn damaged_in_every_way(rng: &mut Rng) -> Vec<u8> {
    let class = *rng.pick(&CLASSES);
    let image = flatten(&of_class(class, rng, Size::TINY));
    (0..rng.between(1, 4)).fold(image, |image, _| damaged(rng, image))
}

/// The images of 0, 1 and 2 bytes, and some of 3.
pub fn short(tally: &mut Tally, sample: u64, seed: u64) {
    tally.image(&[]);
    for first in 0..=255 {
        tally.image(&[first]);
        (0..=255).for_each(|second| tally.image(&[first, second]));
    }
    let mut rng = Rng::new(seed);
    for _ in 0..sample {
        let image = rng.draw().to_le_bytes();
        tally.image(&image[..3]);
    }
}

/// Every image of a header and up to two bytes of payload: each tag with a length of its own and with others that do not fit, at the
/// front, after a name, in a body and after IF. Two bytes of payload are tried in full for the tags that there are.
pub fn fields(tally: &mut Tally) {
    for front in fronts() {
        for tag in 0..=255 {
            for length in [0u16, 1, 2, 3, 5, 64, 65, 255, 256, 65_535] {
                let [low, high] = length.to_le_bytes();
                tally.image(&[&front[..], &[tag, low, high]].concat());
                tally.image(&[&front[..], &[tag, low, high, 0]].concat());
                tally.image(&[&front[..], &[tag, low, high, 0, 1]].concat());
            }
            (0..=255).for_each(|byte| tally.image(&[&front[..], &[tag, 1, 0, byte]].concat()));
        }
    }
    for tag in TAGS {
        for payload in 0..=u16::MAX {
            let [low, high] = payload.to_le_bytes();
            tally.image(&[tag, 2, 0, low, high]);
        }
    }
}

/// What a field can stand after.
fn fronts() -> Vec<Vec<u8>> {
    let name = [tag::NAME, 1, 0, b'a'];
    let body = [&name[..], &[tag::GATE, 13, 0], &[0; 10], &[1, 0, 0]].concat();
    let governed = [&name[..], &[tag::IF, 31, 0], &[0; 31]].concat();
    vec![Vec::new(), name.to_vec(), body, governed]
}

/// The hand-written images of the reading, each limit kept and passed, images around the greatest length, and all cuts of some.
pub fn chosen(tally: &mut Tally) {
    cases().iter().for_each(|case| tally.image_in(&case.image.bytes(), near));
    for limit in limits() {
        tally.image(&flatten(&limit.kept));
        tally.image(&flatten(&limit.passed));
    }
    for length in [limit::IMAGE - 1, limit::IMAGE, limit::IMAGE + 1, limit::IMAGE + 8, 3 * limit::IMAGE] {
        tally.image(&vec![0; length]);
        tally.image(&[tag::BARRIER, 5, 0, 0, 0, 0, 0, 0].repeat(length.div_ceil(8))[..length]);
    }
    let mut rng = Rng::new(1);
    for class in CLASSES {
        let whole = flatten(&of_class(class, &mut rng, Size::MIDDLE));
        (0..=whole.len()).for_each(|cut| tally.image(&whole[..cut]));
    }
}

/// Every room where little is written, some where much is.
fn near(full: &Full, turn: usize) -> Vec<Room> {
    if full.bytes.len() < 200 {
        every(full)
    } else {
        crate::room::rooms(full, turn)
    }
}
