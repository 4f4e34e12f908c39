//! The fifteen kinds of error with their members, their fields and the way back from the fields.

use crate::ast::{Operand, Symbol};
use crate::bytes::{field, Bytes};

/// Members carry the Rust's names and stand in its order; spans are bare numbers.
#[derive(Debug, Clone, PartialEq, Eq)]
#[rustfmt::skip]
pub enum Error {
    RedefinedGate { name: Symbol, decl: u32, prev: u32 },
    RedefinedArgument { name: Symbol, decl: u32, prev: u32 },
    RedefinedParameter { name: Symbol, decl: u32, prev: u32 },
    RecursiveDefinition { cycle: Vec<(u32, u32)> },
    ZeroSizeRegister { reg: u32, decl: u32 },
    RedefinedRegister { reg: Operand, decl: u32, prev: u32 },
    UndefinedParameter { name: u16, stmt: u32, span: u32 },
    InvalidComparisonSize { reg: u32, value: u32, stmt: u32, reg_size: u64, value_size: u64 },
    WrongArgumentArity { stmt: u32, def: u32, name: u16, arity: u64, actual: u64 },
    WrongParameterArity { stmt: u32, def: u32, name: u16, arity: u64, actual: u64 },
    UndefinedGate { name: Symbol, stmt: u32 },
    WrongOperandSize { stmt: u32, span: u32, size: u64, match_span: u32, match_size: u64 },
    InvalidRegisterIndex { name: u16, index: u64, size: u64, reg: u32, def: u32, stmt: u32 },
    WrongRegisterType { name: u16, def: u32, stmt: u32, reg: u32, classical: bool },
    UndefinedRegister { name: u16, reg: u32, stmt: u32 },
}

/// The kind of the error that is listed last and compared by its own rule.
pub const RECURSION: u8 = 4;

/// The error fields of a list.
pub fn encode(errors: &[Error]) -> Vec<u8> {
    errors.iter().flat_map(|error| field(error.kind(), &error.payload())).collect()
}

/// The list that error fields stand for; none if the bytes are not whole fields of the fifteen kinds.
pub fn decode(mut bytes: &[u8]) -> Option<Vec<Error>> {
    let mut errors = Vec::new();
    while !bytes.is_empty() {
        let header = bytes.get(..3)?;
        let end = 3 + usize::from(u16::from_le_bytes([header[1], header[2]]));
        let mut members = Members(bytes.get(3..end)?);
        errors.push(if header[0] <= 8 { members.low(header[0])? } else { members.high(header[0])? });
        if !members.0.is_empty() {
            return None;
        }
        bytes = &bytes[end..];
    }
    Some(errors)
}

impl Error {
    #[rustfmt::skip]
    pub fn kind(&self) -> u8 {
        match self {
            Error::RedefinedGate { .. } => 1,
            Error::RedefinedArgument { .. } => 2,
            Error::RedefinedParameter { .. } => 3,
            Error::RecursiveDefinition { .. } => RECURSION,
            Error::ZeroSizeRegister { .. } => 5,
            Error::RedefinedRegister { .. } => 6,
            Error::UndefinedParameter { .. } => 7,
            Error::InvalidComparisonSize { .. } => 8,
            Error::WrongArgumentArity { .. } => 9,
            Error::WrongParameterArity { .. } => 10,
            Error::UndefinedGate { .. } => 11,
            Error::WrongOperandSize { .. } => 12,
            Error::InvalidRegisterIndex { .. } => 13,
            Error::WrongRegisterType { .. } => 14,
            Error::UndefinedRegister { .. } => 15,
        }
    }

    #[rustfmt::skip]
    fn payload(&self) -> Vec<u8> {
        let mut out = Bytes::default();
        match self {
            Error::RedefinedGate { name, decl, prev }
            | Error::RedefinedArgument { name, decl, prev }
            | Error::RedefinedParameter { name, decl, prev } => out.symbol(name).u32(*decl).u32(*prev),
            Error::RecursiveDefinition { cycle } =>
                cycle.iter().fold(&mut out, |out, (def, call)| out.u32(*def).u32(*call)),
            Error::ZeroSizeRegister { reg, decl } => out.u32(*reg).u32(*decl),
            Error::RedefinedRegister { reg, decl, prev } => out.operand(reg).u32(*decl).u32(*prev),
            Error::UndefinedParameter { name, stmt, span } => out.u16(*name).u32(*stmt).u32(*span),
            Error::InvalidComparisonSize { reg, value, stmt, reg_size, value_size } =>
                out.u32(*reg).u32(*value).u32(*stmt).u64(*reg_size).u64(*value_size),
            Error::WrongArgumentArity { stmt, def, name, arity, actual }
            | Error::WrongParameterArity { stmt, def, name, arity, actual } =>
                out.u32(*stmt).u32(*def).u16(*name).u64(*arity).u64(*actual),
            Error::UndefinedGate { name, stmt } => out.symbol(name).u32(*stmt),
            Error::WrongOperandSize { stmt, span, size, match_span, match_size } =>
                out.u32(*stmt).u32(*span).u64(*size).u32(*match_span).u64(*match_size),
            Error::InvalidRegisterIndex { name, index, size, reg, def, stmt } =>
                out.u16(*name).u64(*index).u64(*size).u32(*reg).u32(*def).u32(*stmt),
            Error::WrongRegisterType { name, def, stmt, reg, classical } =>
                out.u16(*name).u32(*def).u32(*stmt).u32(*reg).u8(*classical as u8),
            Error::UndefinedRegister { name, reg, stmt } => out.u16(*name).u32(*reg).u32(*stmt),
        };
        out.0
    }
}

/// What is left of a payload while its members are read.
struct Members<'a>(&'a [u8]);

impl Members<'_> {
    fn take<const N: usize>(&mut self) -> Option<[u8; N]> {
        let item = self.0.get(..N)?.try_into().ok()?;
        self.0 = &self.0[N..];
        Some(item)
    }

    fn u16(&mut self) -> Option<u16> {
        self.take().map(u16::from_le_bytes)
    }

    fn u32(&mut self) -> Option<u32> {
        self.take().map(u32::from_le_bytes)
    }

    fn u64(&mut self) -> Option<u64> {
        self.take().map(u64::from_le_bytes)
    }

    fn bool(&mut self) -> Option<bool> {
        match self.take()? {
            [0] => Some(false),
            [1] => Some(true),
            _ => None,
        }
    }

    fn symbol(&mut self) -> Option<Symbol> {
        Some(Symbol { span: self.u32()?, name: self.u16()? })
    }

    fn operand(&mut self) -> Option<Operand> {
        let (span, name, indexed, index) = (self.u32()?, self.u16()?, self.bool()?, self.u64()?);
        (indexed || index == 0).then_some(Operand { span, name, index: indexed.then_some(index) })
    }

    fn cycle(&mut self) -> Option<Vec<(u32, u32)>> {
        let mut cycle = Vec::new();
        while !self.0.is_empty() {
            cycle.push((self.u32()?, self.u32()?));
        }
        Some(cycle)
    }

    /// Kinds 1 to 8.
    #[rustfmt::skip]
    fn low(&mut self, kind: u8) -> Option<Error> {
        Some(match kind {
            1 => Error::RedefinedGate { name: self.symbol()?, decl: self.u32()?, prev: self.u32()? },
            2 => Error::RedefinedArgument { name: self.symbol()?, decl: self.u32()?, prev: self.u32()? },
            3 => Error::RedefinedParameter { name: self.symbol()?, decl: self.u32()?, prev: self.u32()? },
            4 => Error::RecursiveDefinition { cycle: self.cycle()? },
            5 => Error::ZeroSizeRegister { reg: self.u32()?, decl: self.u32()? },
            6 => Error::RedefinedRegister { reg: self.operand()?, decl: self.u32()?, prev: self.u32()? },
            7 => Error::UndefinedParameter { name: self.u16()?, stmt: self.u32()?, span: self.u32()? },
            8 => Error::InvalidComparisonSize {
                reg: self.u32()?, value: self.u32()?, stmt: self.u32()?,
                reg_size: self.u64()?, value_size: self.u64()?,
            },
            _ => return None,
        })
    }

    /// Kinds 9 to 15.
    #[rustfmt::skip]
    fn high(&mut self, kind: u8) -> Option<Error> {
        Some(match kind {
            9 => Error::WrongArgumentArity {
                stmt: self.u32()?, def: self.u32()?, name: self.u16()?,
                arity: self.u64()?, actual: self.u64()?,
            },
            10 => Error::WrongParameterArity {
                stmt: self.u32()?, def: self.u32()?, name: self.u16()?,
                arity: self.u64()?, actual: self.u64()?,
            },
            11 => Error::UndefinedGate { name: self.symbol()?, stmt: self.u32()? },
            12 => Error::WrongOperandSize {
                stmt: self.u32()?, span: self.u32()?, size: self.u64()?,
                match_span: self.u32()?, match_size: self.u64()?,
            },
            13 => Error::InvalidRegisterIndex {
                name: self.u16()?, index: self.u64()?, size: self.u64()?,
                reg: self.u32()?, def: self.u32()?, stmt: self.u32()?,
            },
            14 => Error::WrongRegisterType {
                name: self.u16()?, def: self.u32()?, stmt: self.u32()?,
                reg: self.u32()?, classical: self.bool()?,
            },
            15 => Error::UndefinedRegister { name: self.u16()?, reg: self.u32()?, stmt: self.u32()? },
            _ => return None,
        })
    }
}
