//! Every item of every field: there, cut short, and with each value that it must not have.

use super::{Case, Image};
use crate::bytes::field;
use crate::form::tag;

/// An item of a payload, and the bytes that may not stand in its place, with the refusal they get.
#[derive(Clone)]
struct Item {
    bytes: Vec<u8>,
    wrong: Vec<(Vec<u8>, u8)>,
}

/// A field in an image that is read: what stands before it, its items, what stands after it.
struct Template {
    before: Vec<u8>,
    tag: u8,
    items: Vec<Item>,
    after: Vec<u8>,
}

/// Two names, `a` and `b`.
pub const NAMES: [u8; 8] = [1, 1, 0, b'a', 1, 1, 0, b'b'];

pub fn cases() -> Vec<Case> {
    templates().iter().flat_map(|template| [whole(template), items(template)].into_iter().flatten()).collect()
}

/// The field as a whole: read; its header or payload not there; bytes left over.
fn whole(template: &Template) -> Vec<Case> {
    let start = template.before.len();
    let payload: Vec<u8> = template.items.iter().flat_map(|item| item.bytes.clone()).collect();
    let good = field(template.tag, &payload);
    let longer = field(template.tag, &[&payload[..], &[0]].concat());
    let front = Image::default().then(&template.before);
    let mut cases = vec![
        front.clone().then(&good).then(&template.after).passes(),
        front.clone().then(&good[..1]).refused(3, start),
        front.clone().then(&good[..2]).refused(3, start),
        front.clone().then(&longer[..longer.len() - 1]).refused(3, start),
        front.clone().then(&longer).then(&template.after).refused(5, start),
    ];
    if !payload.is_empty() {
        cases.push(front.clone().then(&good[..3]).refused(3, start));
        cases.push(front.then(&good[..good.len() - 1]).refused(3, start));
    }
    cases
}

/// Each item: a payload that ends before its last byte; each wrong value with what follows, and with nothing after it, since an
/// item is judged before the next one is looked at.
fn items(template: &Template) -> Vec<Case> {
    let start = template.before.len();
    let image = |payload: Vec<u8>| {
        Image::default().then(&template.before).then(&field(template.tag, &payload)).then(&template.after)
    };
    let mut cases = Vec::new();
    let mut before: Vec<u8> = Vec::new();
    for (at, item) in template.items.iter().enumerate() {
        let after: Vec<u8> = template.items[at + 1..].iter().flat_map(|item| item.bytes.clone()).collect();
        let short = &item.bytes[..item.bytes.len() - 1];
        cases.push(image([&before, short].concat()).refused(5, start));
        for (wrong, number) in &item.wrong {
            cases.push(image([&before[..], wrong, &after].concat()).refused(*number, start));
            if !after.is_empty() {
                cases.push(image([&before[..], wrong].concat()).refused(*number, start));
            }
        }
        before.extend(&item.bytes);
    }
    cases
}

/// A span or a number: any bytes are right.
fn free(bytes: &[u8]) -> Vec<Item> {
    vec![Item { bytes: bytes.to_vec(), wrong: Vec::new() }]
}

fn span(number: u8) -> Vec<Item> {
    free(&[number, 0, 0, 0])
}

fn name(number: u8) -> Vec<Item> {
    vec![Item { bytes: vec![number, 0], wrong: vec![(vec![2, 0], 6)] }]
}

fn flag(value: u8) -> Vec<Item> {
    vec![Item { bytes: vec![value], wrong: vec![(vec![2], 5)] }]
}

fn count(value: u8) -> Vec<Item> {
    vec![Item { bytes: vec![value], wrong: vec![(vec![33], 7)] }]
}

fn opcode(value: u8) -> Vec<Item> {
    vec![Item { bytes: vec![value], wrong: vec![(vec![16], 5)] }]
}

/// An operand without an index: an index other than 0 is wrong.
fn plain(number: u8) -> Vec<Item> {
    let index = Item { bytes: vec![0; 8], wrong: vec![(vec![0, 0, 0, 0, 0, 0, 0, 1], 5)] };
    [span(number), name(0), flag(0), vec![index]].concat()
}

/// An operand with an index, which may be any.
fn indexed(number: u8) -> Vec<Item> {
    [span(number), name(1), flag(1), free(&[7, 0, 0, 0, 0, 0, 0, 128])].concat()
}

fn real() -> Vec<Item> {
    [opcode(1), span(30), free(&[255, 255, 255, 255])].concat()
}

fn int() -> Vec<Item> {
    [opcode(2), span(31), free(&[255, 0, 0, 0, 0, 0, 0, 255])].concat()
}

fn var() -> Vec<Item> {
    [opcode(3), span(32), name(1)].concat()
}

fn pi() -> Vec<Item> {
    [opcode(0), span(33)].concat()
}

/// An operator's own node, its operands following.
fn operator(code: u8) -> Vec<Item> {
    [opcode(code), span(34)].concat()
}

fn top(tag: u8, items: &[Vec<Item>]) -> Template {
    Template { before: NAMES.to_vec(), tag, items: items.concat(), after: Vec::new() }
}

fn templates() -> Vec<Template> {
    let gate = [span(1), span(2), name(0), flag(1), count(1), count(2)];
    let header = [span(3), name(0), span(4), name(1), span(5), name(0)];
    let open = field(tag::GATE, &top(tag::GATE, &gate[..4]).payload(&[0, 0]));
    let end = field(tag::END, &[]);
    let reset = field(tag::RESET, &top(tag::RESET, &[span(8), plain(9)]).payload(&[]));
    let call = [span(1), span(2), name(1), count(1), count(2), plain(3), indexed(4), operator(10), var()];
    vec![
        top(tag::INCLUDE, &[span(1), name(1)]),
        top(tag::QREG, &[span(1), plain(2)]),
        top(tag::CREG, &[span(1), indexed(2)]),
        Template { after: end.clone(), ..top(tag::GATE, &[&gate[..], &header[..]].concat()) },
        Template {
            before: [&NAMES[..], &open, &end].concat(),
            ..top(tag::GATE, &[span(1), span(2), name(0), flag(0), count(0), count(0)])
        },
        Template { before: [&NAMES[..], &open].concat(), ..top(tag::END, &[]) },
        top(tag::U, &[span(1), plain(2), real(), operator(4), int(), var(), operator(15), pi()]),
        top(tag::CX, &[span(1), plain(2), indexed(3)]),
        top(tag::MEASURE, &[span(1), indexed(2), plain(3)]),
        top(tag::RESET, &[span(1), plain(2)]),
        top(tag::BARRIER, &[span(1), count(2), plain(2), indexed(3)]),
        top(tag::CALL, &call),
        Template { after: reset, ..top(tag::IF, &[span(1), plain(2), span(3), free(&[255; 8])]) },
        Template {
            before: [&NAMES[..], &open].concat(),
            after: end,
            ..top(tag::CX, &[span(1), indexed(2), plain(3)])
        },
    ]
}

impl Template {
    /// The bytes of the items and some more.
    fn payload(&self, more: &[u8]) -> Vec<u8> {
        self.items.iter().flat_map(|item| item.bytes.clone()).chain(more.iter().copied()).collect()
    }
}
