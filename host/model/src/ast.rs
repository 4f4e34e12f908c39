//! A program as 01 means it: names as bytes, declarations in image order, every span and every name number kept.

#[derive(Debug, Clone, PartialEq, Eq, Default)]
pub struct Program {
    pub names: Vec<Vec<u8>>,
    pub decls: Vec<Decl>,
}

/// A name number at a place: the Rust's `Span<Symbol>`.
#[derive(Debug, Clone, Copy, PartialEq, Eq)]
pub struct Symbol {
    pub span: u32,
    pub name: u16,
}

/// A register or one of its bits: the Rust's `Span<Reg>`. In a declaration the index is the size.
#[derive(Debug, Clone, Copy, PartialEq, Eq)]
pub struct Operand {
    pub span: u32,
    pub name: u16,
    pub index: Option<u64>,
}

#[derive(Debug, Clone, PartialEq, Eq)]
pub enum Decl {
    Include(Symbol),
    Register(Register),
    Gate(Gate),
    Stmt(Stmt),
}

#[derive(Debug, Clone, Copy, PartialEq, Eq)]
pub enum Kind {
    Quantum,
    Classical,
}

#[derive(Debug, Clone, Copy, PartialEq, Eq)]
pub struct Register {
    pub span: u32,
    pub kind: Kind,
    pub operand: Operand,
}

impl Register {
    /// "index is the size; none means 1".
    pub fn size(&self) -> u64 {
        self.operand.index.unwrap_or(1)
    }
}

#[derive(Debug, Clone, PartialEq, Eq)]
pub struct Gate {
    pub span: u32,
    pub name: Symbol,
    pub params: Vec<Symbol>,
    pub args: Vec<Symbol>,
    /// None for an opaque gate.
    pub body: Option<Vec<Stmt>>,
}

#[derive(Debug, Clone, PartialEq, Eq)]
pub struct Stmt {
    pub span: u32,
    pub action: Action,
}

#[derive(Debug, Clone, PartialEq, Eq)]
pub enum Action {
    /// The angles in image order: theta, phi, lambda.
    U {
        reg: Operand,
        angles: [Expr; 3],
    },
    Cx {
        copy: Operand,
        xor: Operand,
    },
    Measure {
        from: Operand,
        to: Operand,
    },
    Reset {
        reg: Operand,
    },
    Barrier {
        regs: Vec<Operand>,
    },
    Call(Call),
    If(Box<If>),
}

#[derive(Debug, Clone, PartialEq, Eq)]
pub struct Call {
    pub name: Symbol,
    pub args: Vec<Operand>,
    pub params: Vec<Expr>,
}

#[derive(Debug, Clone, PartialEq, Eq)]
pub struct If {
    pub reg: Operand,
    pub value_span: u32,
    pub value: u64,
    pub then: Stmt,
}

#[derive(Debug, Clone, PartialEq, Eq)]
pub struct Expr {
    pub span: u32,
    pub node: Node,
}

#[derive(Debug, Clone, PartialEq, Eq)]
pub enum Node {
    Pi,
    /// The bits of an f32, so that programs can be compared whatever the bits are.
    Real(u32),
    Int(u64),
    Var(u16),
    Binary(Binary, Box<Expr>, Box<Expr>),
    Unary(Unary, Box<Expr>),
}

/// The operators by opcode: 4 to 8.
#[derive(Debug, Clone, Copy, PartialEq, Eq)]
pub enum Binary {
    Add = 4,
    Sub,
    Mul,
    Div,
    Pow,
}

/// The operators by opcode: 9 to 15.
#[derive(Debug, Clone, Copy, PartialEq, Eq)]
pub enum Unary {
    Neg = 9,
    Sin,
    Cos,
    Tan,
    Exp,
    Ln,
    Sqrt,
}

pub const BINARY: [Binary; 5] = [Binary::Add, Binary::Sub, Binary::Mul, Binary::Div, Binary::Pow];

pub const UNARY: [Unary; 7] =
    [Unary::Neg, Unary::Sin, Unary::Cos, Unary::Tan, Unary::Exp, Unary::Ln, Unary::Sqrt];

impl Program {
    pub fn registers(&self) -> impl Iterator<Item = &Register> {
        self.decls.iter().filter_map(|decl| match decl {
            Decl::Register(register) => Some(register),
            _ => None,
        })
    }

    /// Every GATE field, redefinitions too.
    pub fn gates(&self) -> impl Iterator<Item = &Gate> {
        self.decls.iter().filter_map(|decl| match decl {
            Decl::Gate(gate) => Some(gate),
            _ => None,
        })
    }

    /// The statements at the top level.
    pub fn statements(&self) -> impl Iterator<Item = &Stmt> {
        self.decls.iter().filter_map(|decl| match decl {
            Decl::Stmt(stmt) => Some(stmt),
            _ => None,
        })
    }
}

impl Gate {
    /// The body's statements; none for an opaque gate.
    pub fn statements(&self) -> &[Stmt] {
        self.body.as_deref().unwrap_or(&[])
    }
}
