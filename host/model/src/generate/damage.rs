//! Damaged copies of images: bits flipped, cut, grown, tags swapped, lengths off by one, fields moved.

use super::rng::Rng;

pub fn damaged(rng: &mut Rng, mut image: Vec<u8>) -> Vec<u8> {
    for _ in 0..rng.between(1, 2) {
        if image.is_empty() {
            image.push(rng.draw() as u8);
        }
        damage(rng, &mut image);
    }
    image
}

fn damage(rng: &mut Rng, image: &mut Vec<u8>) {
    let at = rng.below(image.len());
    let fields = starts(image);
    let start = *rng.pick(&fields);
    match rng.below(10) {
        0 => image[at] ^= 1 << rng.below(8),
        1 => image[at] = *rng.pick(&[0, 1, 2, 15, 16, 32, 33, 255]),
        2 => image.truncate(at),
        3 => image.truncate(start),
        4 => image.push(rng.draw() as u8),
        5 => image.insert(at, rng.draw() as u8),
        6 => image[start] = *rng.pick(&[0, 1, 2, 3, 4, 5, 6, 7, 15, 16, 17, 18, 19, 20, 21, 22, 23, 255]),
        7 => lengthen(image, start, true),
        8 => lengthen(image, start, false),
        _ => move_field(rng, image, &fields),
    }
}

/// Where fields start, by their lengths; at least one place.
fn starts(image: &[u8]) -> Vec<usize> {
    let mut starts = Vec::new();
    let mut at = 0;
    while at < image.len() {
        starts.push(at);
        let Some(length) = image.get(at + 1..at + 3) else { break };
        at += 3 + usize::from(u16::from_le_bytes([length[0], length[1]]));
    }
    starts
}

/// A length that is one too great or one too small.
fn lengthen(image: &mut [u8], start: usize, more: bool) {
    let Some(bytes) = image.get_mut(start + 1..start + 3) else { return };
    let length = u16::from_le_bytes([bytes[0], bytes[1]]);
    let length = if more { length.wrapping_add(1) } else { length.wrapping_sub(1) };
    bytes.copy_from_slice(&length.to_le_bytes());
}

/// A field taken out and put before another, or left out.
fn move_field(rng: &mut Rng, image: &mut Vec<u8>, starts: &[usize]) {
    let chosen = rng.below(starts.len());
    let end = starts.get(chosen + 1).copied().unwrap_or(image.len());
    let field: Vec<u8> = image.drain(starts[chosen]..end).collect();
    let to = *rng.pick(starts);
    if to <= image.len() && !rng.chance(3) {
        image.splice(to..to, field);
    }
}
