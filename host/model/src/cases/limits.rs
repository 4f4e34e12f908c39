//! Each limit kept, passed by one, and passed together with another fault of the same field.

use super::fields::NAMES;
use super::places::condition;
use super::{Case, Image};
use crate::bytes::field;
use crate::form::tag;

pub fn cases() -> Vec<Case> {
    [bytes(), names(), gates(), registers(), counted(), depth(), ifs(), opcodes()]
        .into_iter()
        .flatten()
        .collect()
}

fn names_front() -> Image {
    Image::default().then(&NAMES)
}

fn refused_after(front: Image, bytes: &[u8], number: u8) -> Case {
    let offset = front.len();
    front.then(bytes).refused(number, offset)
}

fn bytes() -> Vec<Case> {
    let barrier = field(tag::BARRIER, &[3, 0, 0, 0, 0]);
    let full = Image::default().times(&barrier, 8_192);
    vec![
        full.clone().passes(),
        full.clone().then(&[20]).refused(2, 0),
        full.then(&barrier).refused(2, 0),
        Image::default().times(&barrier, 8_191).then(&barrier[..7]).refused(3, 65_528),
        Image::default().times(&[0], 65_536).refused(4, 0),
        Image::default().times(&[0], 65_537).refused(2, 0),
    ]
}

/// So many NAMEs of two bytes.
fn many_names(count: u16) -> Image {
    (0..count).fold(Image::default(), |image, number| image.then(&field(tag::NAME, &number.to_le_bytes())))
}

fn names() -> Vec<Case> {
    let full = many_names(512);
    let include = |low: u8, high: u8| field(tag::INCLUDE, &[0, 0, 0, 0, low, high]);
    vec![
        full.clone().passes(),
        refused_after(full.clone(), &field(tag::NAME, b"new"), 7),
        refused_after(full.clone(), &[1, 0, 0], 7),
        refused_after(full.clone(), &field(tag::NAME, &[0, 0]), 7),
        refused_after(full.clone(), &[1, 1, 0], 3),
        refused_after(full.clone(), &[1, 1], 3),
        full.clone().then(&include(255, 1)).passes(),
        refused_after(full.clone(), &include(0, 2), 6),
        refused_after(many_names(511), &field(tag::NAME, &[254, 1]), 6),
        refused_after(full.then(&include(0, 0)), &field(tag::NAME, b"new"), 4),
    ]
}

/// Opaque gates; all have one name, since redefinitions count.
fn gates() -> Vec<Case> {
    let opaque = field(tag::GATE, &[1, 0, 0, 0, 2, 0, 0, 0, 0, 0, 0, 0, 0]);
    let open = field(tag::GATE, &[1, 0, 0, 0, 2, 0, 0, 0, 0, 0, 1, 0, 0]);
    let with_body = [&open[..], &[6, 0, 0]].concat();
    let bad_name = field(tag::GATE, &[1, 0, 0, 0, 2, 0, 0, 0, 2, 0, 1, 0, 0]);
    let full = names_front().times(&opaque, 64).times(&with_body, 64);
    vec![
        full.clone().passes(),
        refused_after(full.clone(), &opaque, 7),
        refused_after(full.clone(), &open, 7),
        refused_after(full.clone(), &bad_name, 7),
        refused_after(full.clone(), &[5, 0, 0], 7),
        refused_after(full, &opaque[..15], 3),
        refused_after(names_front().times(&opaque, 127), &bad_name, 6),
    ]
}

/// QREGs and CREGs together.
fn registers() -> Vec<Case> {
    let quantum = field(tag::QREG, &[0; 19]);
    let classical = field(tag::CREG, &[0; 19]);
    let mixed = names_front().times(&[&quantum[..], &classical].concat(), 64);
    vec![
        mixed.clone().passes(),
        refused_after(mixed.clone(), &quantum, 7),
        refused_after(mixed.clone(), &classical, 7),
        refused_after(mixed.clone(), &[3, 0, 0], 7),
        refused_after(mixed.clone(), &[4, 1, 0], 3),
        mixed.then(&field(tag::RESET, &[0; 19])).passes(),
        names_front().times(&quantum, 128).passes(),
        refused_after(names_front().times(&quantum, 128), &quantum, 7),
        names_front().times(&classical, 128).passes(),
        refused_after(names_front().times(&classical, 128), &classical, 7),
    ]
}

/// A payload in segments: some bytes, then some that are repeated.
fn repeated(tag: u8, head: &[u8], each: &[u8], count: usize) -> Image {
    let length = (head.len() + each.len() * count) as u16;
    let header = [&[tag][..], &length.to_le_bytes(), head].concat();
    names_front().then(&header).times(each, count)
}

/// 32 and 33 of each counted item.
fn counted() -> Vec<Case> {
    let (symbol, operand, pi) = ([0; 6], [0; 15], [0; 5]);
    let gate = |params: u8, args: u8| [&[0; 11][..], &[params, args]].concat();
    let call = |params: u8, args: u8| [&[0; 10][..], &[params, args]].concat();
    let barrier = |count: u8| [0, 0, 0, 0, count];
    let start = NAMES.len();
    vec![
        repeated(tag::GATE, &gate(32, 0), &symbol, 32).passes(),
        repeated(tag::GATE, &gate(33, 0), &symbol, 33).refused(7, start),
        repeated(tag::GATE, &gate(0, 32), &symbol, 32).passes(),
        repeated(tag::GATE, &gate(0, 33), &symbol, 33).refused(7, start),
        repeated(tag::GATE, &gate(32, 32), &symbol, 64).passes(),
        repeated(tag::GATE, &gate(32, 32), &symbol, 63).refused(5, start),
        repeated(tag::GATE, &gate(32, 32), &symbol, 65).refused(5, start),
        repeated(tag::CALL, &call(32, 0), &pi, 32).passes(),
        repeated(tag::CALL, &call(33, 0), &pi, 33).refused(7, start),
        repeated(tag::CALL, &call(0, 32), &operand, 32).passes(),
        repeated(tag::CALL, &call(0, 33), &operand, 33).refused(7, start),
        repeated(tag::CALL, &call(32, 32), &operand, 32).times(&pi, 32).refused(5, start),
        repeated(tag::BARRIER, &barrier(32), &operand, 32).passes(),
        repeated(tag::BARRIER, &barrier(33), &operand, 33).refused(7, start),
        repeated(tag::BARRIER, &barrier(0), &operand, 0).passes(),
        repeated(tag::BARRIER, &barrier(0), &operand, 1).refused(5, start),
    ]
}

/// U on a name, its first angle being these nodes of five bytes and its others Pi.
fn angled(before: &[u8], operators: usize, last: &[u8]) -> Image {
    let (operator, others) = ([9, 0, 0, 0, 0], [0; 10]);
    let length = (19 + before.len() + operator.len() * operators + last.len() + others.len()) as u16;
    let header = [&[tag::U][..], &length.to_le_bytes(), &[0; 19], before].concat();
    names_front().then(&header).times(&operator, operators).then(last).then(&others)
}

fn depth() -> Vec<Case> {
    let start = NAMES.len();
    let pi = [0; 5];
    // Add with Pi on its left: one level more for what stands on the right.
    let add = [4, 0, 0, 0, 0, 0, 0, 0, 0, 0];
    vec![
        angled(&[], 63, &pi).passes(),
        angled(&[], 64, &pi).refused(7, start),
        angled(&[], 64, &[16, 0, 0, 0, 0]).refused(5, start),
        angled(&[], 63, &[3, 0, 0, 0, 0, 2, 0]).refused(6, start),
        angled(&[], 64, &[3, 0, 0, 0, 0, 2, 0]).refused(7, start),
        angled(&add, 62, &pi).passes(),
        angled(&add, 63, &pi).refused(7, start),
        // The depth is judged before the node's span: here the payload ends right after the opcode of depth 65.
        repeated(tag::U, &[0; 19], &[9, 0, 0, 0, 0], 64).refused(5, start),
        cut_after_opcode(0).refused(7, start),
        cut_after_opcode(16).refused(5, start),
    ]
}

/// 64 operators and one more opcode, with nothing after it.
fn cut_after_opcode(opcode: u8) -> Image {
    let length: u16 = 19 + 64 * 5 + 1;
    let header = [&[tag::U][..], &length.to_le_bytes(), &[0; 19]].concat();
    names_front().then(&header).times(&[9, 0, 0, 0, 0], 64).then(&[opcode])
}

fn ifs() -> Vec<Case> {
    let condition = condition();
    let reset = field(tag::RESET, &[0; 19]);
    let row = names_front().times(&condition, 16);
    let body = names_front().then(&field(tag::GATE, &[0, 0, 0, 0, 0, 0, 0, 0, 0, 0, 1, 0, 0]));
    vec![
        row.clone().then(&reset).passes(),
        refused_after(row.clone(), &condition, 7),
        refused_after(row.clone(), &[22, 0, 0], 7),
        refused_after(row.clone(), &condition[..33], 3),
        refused_after(row.clone(), &[], 3),
        refused_after(row, &[6, 0, 0], 4),
        body.clone().times(&condition, 16).then(&reset).then(&[6, 0, 0]).passes(),
        refused_after(body.times(&condition, 16), &condition, 7),
        // A statement ends the row.
        names_front().times(&[&condition[..], &reset].concat(), 17).passes(),
        names_front().times(&condition, 16).then(&reset).times(&condition, 16).then(&reset).passes(),
    ]
}

/// A call whose parameters are all sixteen opcodes in turn.
fn opcodes() -> Vec<Case> {
    let mut params = Vec::new();
    for opcode in 0..16 {
        params.extend([opcode, 1, 2, 3, 4]);
        params.extend(match opcode {
            0 => vec![],
            1 => vec![0, 0, 0xc0, 0x7f],
            2 => vec![255; 8],
            3 => vec![1, 0],
            4..=8 => vec![0; 10],
            _ => vec![0; 5],
        });
    }
    let head = [0, 0, 0, 0, 0, 0, 0, 0, 0, 0, 16, 0];
    let few = [0, 0, 0, 0, 0, 0, 0, 0, 0, 0, 15, 0];
    let start = NAMES.len();
    vec![
        names_front().then(&field(tag::CALL, &[&head[..], &params].concat())).passes(),
        names_front().then(&field(tag::CALL, &[&few[..], &params].concat())).refused(5, start),
    ]
}
