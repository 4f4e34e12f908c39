//! From bytes to a program, or the first fault in 01's order: "In a field: three header bytes there (3), tag (4), payload there (3),
//! count of such fields (7), then items left to right: doesn't fit or bad value 5, name 6, count or depth 7; bytes left over 5."

use crate::ast::*;
use crate::form::{limit, tag};

/// A refusal of the reading: 01's number from 2 to 7 and the offset.
#[derive(Debug, Clone, Copy, PartialEq, Eq)]
pub struct Refusal {
    pub number: u8,
    pub offset: usize,
}

type Result<T> = std::result::Result<T, Refusal>;

pub fn read(image: &[u8]) -> Result<Program> {
    if image.len() > limit::IMAGE {
        return Err(Refusal { number: 2, offset: 0 });
    }
    let mut reader = Reader { image, at: 0, names: Vec::new(), gates: 0, registers: 0 };
    let mut decls = Vec::new();
    while reader.at < image.len() {
        let place = if decls.is_empty() { Place::Front } else { Place::Top };
        let field = reader.field(place)?;
        if field.tag == tag::NAME {
            reader.name(field)?;
        } else {
            decls.push(reader.decl(field)?);
        }
    }
    Ok(Program { names: reader.names, decls })
}

/// Where a field stands; it settles which tags are in place.
#[derive(Clone, Copy)]
enum Place {
    /// Nothing but NAMEs before it.
    Front,
    Top,
    Body,
    /// Right after an IF.
    Governed,
}

fn in_place(tag: u8, place: Place) -> bool {
    let statement = (tag::U..=tag::IF).contains(&tag);
    let declaration = (tag::INCLUDE..=tag::GATE).contains(&tag);
    match place {
        Place::Front => tag == tag::NAME || declaration || statement,
        Place::Top => declaration || statement,
        Place::Body => tag == tag::END || statement,
        Place::Governed => statement,
    }
}

struct Reader<'a> {
    image: &'a [u8],
    at: usize,
    names: Vec<Vec<u8>>,
    gates: usize,
    registers: usize,
}

/// A field whose header and payload are there, and what is left of its payload.
struct Field<'a> {
    start: usize,
    tag: u8,
    rest: &'a [u8],
    names: usize,
}

impl<'a> Reader<'a> {
    /// The next field, up to "payload there". Where the image has ended, a header is missing at the image's length.
    fn field(&mut self, place: Place) -> Result<Field<'a>> {
        let start = self.at;
        let refused = |number| Err(Refusal { number, offset: start });
        let Some(header) = self.image.get(start..start + 3) else { return refused(3) };
        if !in_place(header[0], place) {
            return refused(4);
        }
        let length = u16::from_le_bytes([header[1], header[2]]) as usize;
        let Some(rest) = self.image.get(start + 3..start + 3 + length) else { return refused(3) };
        self.at = start + 3 + length;
        Ok(Field { start, tag: header[0], rest, names: self.names.len() })
    }

    /// "1 to 64 bytes, unlike any earlier NAME; else 6"
    fn name(&mut self, field: Field) -> Result<()> {
        field.within(self.names.len() + 1, limit::NAMES)?;
        let name = field.rest.to_vec();
        if name.is_empty() || name.len() > limit::NAME_BYTES || self.names.contains(&name) {
            return field.refuse(6);
        }
        self.names.push(name);
        Ok(())
    }

    fn decl(&mut self, mut field: Field) -> Result<Decl> {
        match field.tag {
            tag::INCLUDE => {
                let file = field.symbol()?;
                field.done(Decl::Include(file))
            }
            tag::QREG | tag::CREG => {
                self.registers += 1;
                field.within(self.registers, limit::REGISTERS)?;
                let kind = if field.tag == tag::QREG { Kind::Quantum } else { Kind::Classical };
                let register = Register { span: field.u32()?, kind, operand: field.operand()? };
                field.done(Decl::Register(register))
            }
            tag::GATE => Ok(Decl::Gate(self.gate(field)?)),
            _ => Ok(Decl::Stmt(self.statement(field, 0)?)),
        }
    }

    fn gate(&mut self, mut field: Field) -> Result<Gate> {
        self.gates += 1;
        field.within(self.gates, limit::GATES)?;
        let (span, name, has_body) = (field.u32()?, field.symbol()?, field.flag()?);
        let (params, args) = (field.count()?, field.count()?);
        let params = field.many(params, Field::symbol)?;
        let args = field.many(args, Field::symbol)?;
        field.done(())?;
        let body = if has_body { Some(self.body()?) } else { None };
        Ok(Gate { span, name, params, args, body })
    }

    fn body(&mut self) -> Result<Vec<Stmt>> {
        let mut body = Vec::new();
        loop {
            let field = self.field(Place::Body)?;
            if field.tag == tag::END {
                return field.done(body);
            }
            body.push(self.statement(field, 0)?);
        }
    }

    /// A statement's field and what it governs; `ifs` is the number of IFs right before it.
    fn statement(&mut self, mut field: Field, ifs: usize) -> Result<Stmt> {
        if field.tag != tag::IF {
            let span = field.u32()?;
            let action = field.action()?;
            return field.done(Stmt { span, action });
        }
        field.within(ifs + 1, limit::IFS)?;
        let span = field.u32()?;
        let (reg, value_span, value) = (field.operand()?, field.u32()?, field.u64()?);
        field.done(())?;
        let governed = self.field(Place::Governed)?;
        let then = self.statement(governed, ifs + 1)?;
        Ok(Stmt { span, action: Action::If(Box::new(If { reg, value_span, value, then })) })
    }
}

impl Field<'_> {
    fn refuse<T>(&self, number: u8) -> Result<T> {
        Err(Refusal { number, offset: self.start })
    }

    fn within(&self, count: usize, limit: usize) -> Result<()> {
        if count > limit {
            return self.refuse(7);
        }
        Ok(())
    }

    /// The payload has to end here.
    fn done<T>(&self, value: T) -> Result<T> {
        if self.rest.is_empty() {
            Ok(value)
        } else {
            self.refuse(5)
        }
    }

    fn take<const N: usize>(&mut self) -> Result<[u8; N]> {
        if self.rest.len() < N {
            return self.refuse(5);
        }
        let (item, rest) = self.rest.split_at(N);
        self.rest = rest;
        Ok(item.try_into().expect("an item of N bytes"))
    }

    fn u8(&mut self) -> Result<u8> {
        Ok(u8::from_le_bytes(self.take()?))
    }

    fn u32(&mut self) -> Result<u32> {
        Ok(u32::from_le_bytes(self.take()?))
    }

    fn u64(&mut self) -> Result<u64> {
        Ok(u64::from_le_bytes(self.take()?))
    }

    fn name(&mut self) -> Result<u16> {
        let name = u16::from_le_bytes(self.take()?);
        if usize::from(name) >= self.names {
            return self.refuse(6);
        }
        Ok(name)
    }

    fn flag(&mut self) -> Result<bool> {
        match self.u8()? {
            0 => Ok(false),
            1 => Ok(true),
            _ => self.refuse(5),
        }
    }

    fn count(&mut self) -> Result<usize> {
        let count = usize::from(self.u8()?);
        self.within(count, limit::COUNTED)?;
        Ok(count)
    }

    fn many<T>(&mut self, count: usize, item: impl Fn(&mut Self) -> Result<T>) -> Result<Vec<T>> {
        (0..count).map(|_| item(self)).collect()
    }

    fn symbol(&mut self) -> Result<Symbol> {
        Ok(Symbol { span: self.u32()?, name: self.name()? })
    }

    /// "flag 0 needs index 0"
    fn operand(&mut self) -> Result<Operand> {
        let (span, name, indexed, index) = (self.u32()?, self.name()?, self.flag()?, self.u64()?);
        if !indexed && index != 0 {
            return self.refuse(5);
        }
        Ok(Operand { span, name, index: indexed.then_some(index) })
    }

    /// What follows the span of a statement other than IF.
    fn action(&mut self) -> Result<Action> {
        Ok(match self.tag {
            tag::U => {
                let reg = self.operand()?;
                Action::U { reg, angles: [self.expr(1)?, self.expr(1)?, self.expr(1)?] }
            }
            tag::CX => Action::Cx { copy: self.operand()?, xor: self.operand()? },
            tag::MEASURE => Action::Measure { from: self.operand()?, to: self.operand()? },
            tag::RESET => Action::Reset { reg: self.operand()? },
            tag::BARRIER => {
                let count = self.count()?;
                Action::Barrier { regs: self.many(count, Field::operand)? }
            }
            _ => {
                let name = self.symbol()?;
                let (params, args) = (self.count()?, self.count()?);
                let args = self.many(args, Field::operand)?;
                Action::Call(Call { name, args, params: self.many(params, |field| field.expr(1))? })
            }
        })
    }

    /// "a node's depth is judged right after its opcode, a bad opcode first". `depth` is the node's own, the root's being 1.
    fn expr(&mut self, depth: usize) -> Result<Expr> {
        let opcode = self.u8()?;
        if opcode > 15 {
            return self.refuse(5);
        }
        self.within(depth, limit::DEPTH)?;
        let span = self.u32()?;
        let node = match opcode {
            0 => Node::Pi,
            1 => Node::Real(self.u32()?),
            2 => Node::Int(self.u64()?),
            3 => Node::Var(self.name()?),
            4..=8 => {
                let (left, right) = (self.expr(depth + 1)?, self.expr(depth + 1)?);
                Node::Binary(BINARY[usize::from(opcode - 4)], Box::new(left), Box::new(right))
            }
            _ => Node::Unary(UNARY[usize::from(opcode - 9)], Box::new(self.expr(depth + 1)?)),
        };
        Ok(Expr { span, node })
    }
}
