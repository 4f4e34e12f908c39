//! The run's bytes read back by 01's table, and held to the program that they are the run of. Nothing here is shared with what writes
//! entries in the model.

use model::ast::{Decl, Kind, Program};
use model::run::Entry;

/// The entries that bytes stand for: "fields: 32 U qubit; 33 CX two; 34 MEASURE qubit, bit; 35 RESET qubit; 36 one barrier qubit each
/// [...] then 37 empty; 38 opaque call: name, qubits; 39 IF first bit, width (4 bytes each), value (8) [...] then 40 empty".
pub fn decode(mut bytes: &[u8]) -> Result<Vec<Entry>, String> {
    let mut entries = Vec::new();
    while !bytes.is_empty() {
        let [tag, low, high, rest @ ..] = bytes else {
            return Err(format!("{} bytes left over", bytes.len()));
        };
        let length = usize::from(*low) + 256 * usize::from(*high);
        let payload = rest.get(..length).ok_or(format!("entry {} is cut short", entries.len()))?;
        let entry = entry(*tag, payload);
        entries.push(entry.ok_or(format!("entry {} is no entry: {tag} {payload:?}", entries.len()))?);
        bytes = &rest[length..];
    }
    Ok(entries)
}

fn entry(tag: u8, payload: &[u8]) -> Option<Entry> {
    let numbers: Vec<u32> = payload.chunks_exact(4).map(number).collect();
    Some(match (tag, payload.len(), &numbers[..]) {
        (32, 4, [qubit]) => Entry::U(*qubit),
        (33, 8, [copy, xor]) => Entry::Cx(*copy, *xor),
        (34, 8, [qubit, bit]) => Entry::Measure(*qubit, *bit),
        (35, 4, [qubit]) => Entry::Reset(*qubit),
        (36, 4, [qubit]) => Entry::BarrierQubit(*qubit),
        (37, 0, []) => Entry::BarrierEnd,
        (38, length, _) if length % 4 == 2 => {
            let name = u16::from(payload[0]) + 256 * u16::from(payload[1]);
            Entry::Opaque(name, payload[2..].chunks_exact(4).map(number).collect())
        }
        (39, 16, [first, width, low, high]) => {
            let value = u64::from(*low) + (u64::from(*high) << 32);
            Entry::If { first: *first, width: *width, value }
        }
        (40, 0, []) => Entry::IfEnd,
        _ => return None,
    })
}

fn number(bytes: &[u8]) -> u32 {
    bytes.iter().rev().fold(0, |number, byte| number * 256 + u32::from(*byte))
}

/// Holds the entries of an admitted program to what its declarations say: bits that there are, barriers and IFs that close, opaque
/// calls of opaque gates.
pub fn sound(program: &Program, entries: &[Entry]) -> Result<(), String> {
    let mut open = 0;
    let mut in_barrier = false;
    for (at, entry) in entries.iter().enumerate() {
        let wrong = |what: &str| Err(format!("entry {at}, {entry:?}: {what}"));
        if !known_bits(program, entry) {
            return wrong("a bit that there is not");
        }
        let barrier = matches!(entry, Entry::BarrierQubit(_) | Entry::BarrierEnd);
        if in_barrier && !barrier {
            return wrong("within a barrier");
        }
        in_barrier = matches!(entry, Entry::BarrierQubit(_));
        match entry {
            Entry::If { .. } => open += 1,
            Entry::IfEnd if open == 0 => return wrong("closes nothing"),
            Entry::IfEnd => open -= 1,
            _ => (),
        }
        if !known_condition(program, entry) || !known_opaque(program, entry) {
            return wrong("not of the program");
        }
    }
    match open == 0 && !in_barrier {
        true => Ok(()),
        false => Err("the run ends within an IF or a barrier".to_string()),
    }
}

fn total(program: &Program, kind: Kind) -> u128 {
    program
        .registers()
        .filter(|register| register.kind == kind)
        .map(|register| u128::from(register.size()))
        .sum()
}

fn known_bits(program: &Program, entry: &Entry) -> bool {
    let within = |kind: Kind, bits: &[u32]| bits.iter().all(|bit| u128::from(*bit) < total(program, kind));
    match entry {
        Entry::U(qubit) | Entry::Reset(qubit) | Entry::BarrierQubit(qubit) => {
            within(Kind::Quantum, &[*qubit])
        }
        Entry::Cx(copy, xor) => within(Kind::Quantum, &[*copy, *xor]),
        Entry::Measure(qubit, bit) => within(Kind::Quantum, &[*qubit]) && within(Kind::Classical, &[*bit]),
        Entry::Opaque(_, qubits) => within(Kind::Quantum, qubits),
        Entry::If { first, .. } => within(Kind::Classical, &[*first]),
        Entry::BarrierEnd | Entry::IfEnd => true,
    }
}

/// An IF compares one bit, or a whole classical register, with a value that fits.
fn known_condition(program: &Program, entry: &Entry) -> bool {
    let Entry::If { first, width, value } = entry else { return true };
    let fits = *width >= 64 || u128::from(*value) < 1 << *width;
    let mut at = 0;
    let whole = program.registers().filter(|register| register.kind == Kind::Classical).any(|register| {
        let start = at;
        at += u128::from(register.size());
        start == u128::from(*first) && register.size() == u64::from(*width)
    });
    fits && (*width == 1 || whole)
}

fn known_opaque(program: &Program, entry: &Entry) -> bool {
    let Entry::Opaque(name, qubits) = entry else { return true };
    program.decls.iter().any(|decl| match decl {
        Decl::Gate(gate) => gate.name.name == *name && gate.body.is_none() && gate.args.len() == qubits.len(),
        _ => false,
    })
}
