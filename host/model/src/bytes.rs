//! Little-endian bytes, in the forms that images, error fields and entries share.

use crate::ast::{Operand, Symbol};

#[derive(Debug, Clone, Default)]
pub struct Bytes(pub Vec<u8>);

impl Bytes {
    pub fn u8(&mut self, value: u8) -> &mut Bytes {
        self.0.push(value);
        self
    }

    pub fn u16(&mut self, value: u16) -> &mut Bytes {
        self.0.extend(value.to_le_bytes());
        self
    }

    pub fn u32(&mut self, value: u32) -> &mut Bytes {
        self.0.extend(value.to_le_bytes());
        self
    }

    pub fn u64(&mut self, value: u64) -> &mut Bytes {
        self.0.extend(value.to_le_bytes());
        self
    }

    pub fn symbol(&mut self, symbol: &Symbol) -> &mut Bytes {
        self.u32(symbol.span).u16(symbol.name)
    }

    /// span, name, flag, index: 15 bytes.
    pub fn operand(&mut self, operand: &Operand) -> &mut Bytes {
        self.u32(operand.span).u16(operand.name);
        self.u8(operand.index.is_some() as u8).u64(operand.index.unwrap_or(0))
    }
}

/// "A field is a one-byte tag, a two-byte payload length, the payload."
pub fn field(tag: u8, payload: &[u8]) -> Vec<u8> {
    let length = u16::try_from(payload.len()).expect("a payload has at most 65,535 bytes");
    let mut out = Bytes::default();
    out.u8(tag).u16(length);
    out.0.extend(payload);
    out.0
}
