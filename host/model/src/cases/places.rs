//! Tags that are unknown or out of place, images that end in a body or after IF, names, and which of two faults comes first.

use super::fields::NAMES;
use super::{Case, Image};
use crate::bytes::field;
use crate::form::tag;

/// A name, an include and the parts that bodies and conditions are made of, each a whole field.
const INCLUDE: [u8; 9] = [2, 6, 0, 1, 0, 0, 0, 0, 0];
const OPEN: [u8; 16] = [5, 13, 0, 1, 0, 0, 0, 2, 0, 0, 0, 0, 0, 1, 0, 0];
const OPAQUE: [u8; 16] = [5, 13, 0, 1, 0, 0, 0, 2, 0, 0, 0, 0, 0, 0, 0, 0];
const END: [u8; 3] = [6, 0, 0];
const BARRIER: [u8; 8] = [20, 5, 0, 3, 0, 0, 0, 0];
const REGISTER: [u8; 19] = [0; 19];

pub fn cases() -> Vec<Case> {
    [unknown(), out_of_place(), endings(), names(), first_fault()].into_iter().flatten().collect()
}

pub fn condition() -> Vec<u8> {
    field(tag::IF, &[0; 31])
}

fn names_front() -> Image {
    Image::default().then(&NAMES)
}

fn in_body() -> Image {
    names_front().then(&OPEN)
}

fn refused_after(front: Image, bytes: &[u8], number: u8) -> Case {
    let offset = front.len();
    front.then(bytes).refused(number, offset)
}

fn unknown() -> Vec<Case> {
    let tags = [0, 7, 8, 15, 23, 32, 127, 128, 255];
    let mut cases: Vec<Case> =
        tags.iter().map(|&tag| refused_after(Image::default(), &[tag, 0, 0], 4)).collect();
    for front in [names_front().then(&INCLUDE), in_body(), names_front().then(&condition())] {
        cases.extend([7, 15, 23].iter().map(|&tag| refused_after(front.clone(), &[tag, 0, 0], 4)));
    }
    cases
}

/// Each field below would be read in its place.
fn out_of_place() -> Vec<Case> {
    let register = |tag: u8| field(tag, &REGISTER);
    let declarations =
        [INCLUDE.to_vec(), register(tag::QREG), register(tag::CREG), OPEN.to_vec(), OPAQUE.to_vec()];
    let name = field(tag::NAME, b"c");
    let governed = [names_front().then(&condition()), in_body().then(&BARRIER).then(&condition())];
    let mut cases = vec![
        refused_after(Image::default(), &END, 4),
        refused_after(names_front(), &END, 4),
        refused_after(in_body().then(&END), &END, 4),
        refused_after(names_front().then(&OPAQUE), &END, 4),
        refused_after(in_body(), &name, 4),
        refused_after(in_body().then(&condition()).then(&condition()), &END, 4),
    ];
    let fields = [&INCLUDE[..], &BARRIER, &OPAQUE, &[&OPEN[..], &END].concat(), &register(tag::QREG)];
    cases.extend(fields.map(|before| refused_after(names_front().then(before), &name, 4)));
    cases.extend(declarations.iter().map(|field| refused_after(in_body(), field, 4)));
    for front in governed {
        cases.extend(declarations.iter().map(|field| refused_after(front.clone(), field, 4)));
        cases.push(refused_after(front.clone(), &END, 4));
        cases.push(refused_after(front.clone(), &name, 4));
        cases.push(if front.len() > NAMES.len() + condition().len() {
            front.then(&BARRIER).then(&END).passes()
        } else {
            front.then(&BARRIER).passes()
        });
    }
    cases
}

/// Images that end where a field has to follow: at the image's length where no byte of it is there, at its start where some are.
fn endings() -> Vec<Case> {
    let mut cases = Vec::new();
    let fronts = [
        in_body(),
        in_body().then(&BARRIER),
        names_front().then(&condition()),
        names_front().then(&condition()).then(&condition()),
        in_body().then(&condition()),
        in_body().then(&condition()).then(&BARRIER),
    ];
    for front in fronts {
        for bytes in [&[][..], &BARRIER[..1], &BARRIER[..2], &BARRIER[..3], &BARRIER[..7], &[0], &[0, 0]] {
            cases.push(refused_after(front.clone(), bytes, 3));
        }
    }
    cases
}

fn names() -> Vec<Case> {
    let two = |first: &[u8], second: &[u8]| {
        Image::default().then(&field(tag::NAME, first)).then(&field(tag::NAME, second))
    };
    vec![
        refused_after(Image::default(), &[1, 0, 0], 6),
        refused_after(names_front(), &[1, 0, 0], 6),
        Image::default().then(&[1, 64, 0]).times(&[0], 64).passes(),
        Image::default().then(&[1, 65, 0]).times(&[0], 65).refused(6, 0),
        Image::default().then(&[1, 0, 1]).times(&[0], 256).refused(6, 0),
        Image::default().then(&[1, 0xfd, 0xff]).times(&[0], 65_533).refused(6, 0),
        two(b"a", b"a").refused(6, 4),
        two(b"ab", b"ab").refused(6, 5),
        two(b"ab", b"a").passes(),
        two(b"a", b"ab").passes(),
        two(&[0], &[0, 0]).passes(),
        two(&[255], &[254]).passes(),
        refused_after(names_front(), &field(tag::NAME, b"a"), 6),
        refused_after(names_front(), &field(tag::NAME, b"b"), 6),
        // Without a NAME there is no name number at all.
        refused_after(Image::default(), &INCLUDE, 6),
        refused_after(Image::default(), &field(tag::QREG, &REGISTER), 6),
        refused_after(Image::default(), &condition(), 6),
        Image::default().then(&BARRIER).passes(),
        refused_after(names_front(), &field(tag::INCLUDE, &[1, 0, 0, 0, 0, 1]), 6),
    ]
}

/// Two faults at once: the one that 01 names first counts.
fn first_fault() -> Vec<Case> {
    vec![
        // A missing header before an unknown tag.
        refused_after(names_front(), &[0], 3),
        refused_after(names_front(), &[255, 255], 3),
        // An unknown or misplaced tag before a missing payload.
        refused_after(names_front(), &[0, 255, 255], 4),
        refused_after(names_front(), &[6, 1, 0], 4),
        refused_after(in_body(), &[5, 13, 0], 4),
        // A missing payload before its items.
        refused_after(Image::default(), &[2, 6, 0, 1, 0, 0, 0, 9], 3),
        // A bad name before a bad flag, a bad flag before a bad index, an index before what is left over.
        refused_after(names_front(), &field(tag::QREG, &[&[0; 8][..], &[2, 0, 2], &[0; 8]].concat()), 6),
        refused_after(names_front(), &field(tag::QREG, &[&[0; 10][..], &[2], &[1; 8]].concat()), 5),
        refused_after(names_front(), &field(tag::QREG, &[&[0; 10][..], &[0], &[1; 9]].concat()), 5),
        // A count before the next one, and before the items that it counts.
        refused_after(names_front(), &field(tag::GATE, &[&[0; 10][..], &[2, 33, 33]].concat()), 5),
        refused_after(names_front(), &field(tag::GATE, &[&[0; 8][..], &[2, 0, 1, 33]].concat()), 6),
        refused_after(names_front(), &field(tag::BARRIER, &[0, 0, 0, 0, 255]), 7),
        refused_after(names_front(), &field(tag::BARRIER, &[0, 0, 0, 0, 32]), 5),
        // The first field at fault, not the worst one.
        refused_after(names_front(), &[&END[..], &[0, 0, 0]].concat(), 4),
        refused_after(in_body(), &[&[6, 1, 0, 0][..], &[0, 0, 0]].concat(), 5),
    ]
}
