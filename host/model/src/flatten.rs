//! From a program to its image.

use crate::ast::*;
use crate::bytes::{field, Bytes};
use crate::form::tag;

/// The image of a program. Limits are not looked at, so that images one past a limit can be made; a count over 255 or a payload
/// over 65,535 bytes has no image and is a mistake of the caller.
pub fn flatten(program: &Program) -> Vec<u8> {
    let mut image = Vec::new();
    for name in &program.names {
        image.extend(field(tag::NAME, name));
    }
    for decl in &program.decls {
        flatten_decl(decl, &mut image);
    }
    image
}

fn flatten_decl(decl: &Decl, image: &mut Vec<u8>) {
    match decl {
        Decl::Include(file) => {
            let mut out = Bytes::default();
            image.extend(field(tag::INCLUDE, &out.symbol(file).0));
        }
        Decl::Register(register) => {
            let mut out = Bytes::default();
            out.u32(register.span).operand(&register.operand);
            let tag = if register.kind == Kind::Quantum { tag::QREG } else { tag::CREG };
            image.extend(field(tag, &out.0));
        }
        Decl::Gate(gate) => flatten_gate(gate, image),
        Decl::Stmt(stmt) => flatten_stmt(stmt, image),
    }
}

fn flatten_gate(gate: &Gate, image: &mut Vec<u8>) {
    let mut out = Bytes::default();
    out.u32(gate.span).symbol(&gate.name).u8(gate.body.is_some() as u8);
    out.u8(count(gate.params.len())).u8(count(gate.args.len()));
    for symbol in gate.params.iter().chain(&gate.args) {
        out.symbol(symbol);
    }
    image.extend(field(tag::GATE, &out.0));
    if let Some(body) = &gate.body {
        for stmt in body {
            flatten_stmt(stmt, image);
        }
        image.extend(field(tag::END, &[]));
    }
}

fn flatten_stmt(stmt: &Stmt, image: &mut Vec<u8>) {
    let mut out = Bytes::default();
    out.u32(stmt.span);
    image.extend(field(payload(&stmt.action, &mut out), &out.0));
    if let Action::If(condition) = &stmt.action {
        flatten_stmt(&condition.then, image);
    }
}

/// Writes what follows a statement's span and gives its tag.
fn payload(action: &Action, out: &mut Bytes) -> u8 {
    match action {
        Action::U { reg, angles } => {
            out.operand(reg);
            angles.iter().for_each(|angle| flatten_expr(angle, out));
            tag::U
        }
        Action::Cx { copy, xor } => {
            out.operand(copy).operand(xor);
            tag::CX
        }
        Action::Measure { from, to } => {
            out.operand(from).operand(to);
            tag::MEASURE
        }
        Action::Reset { reg } => {
            out.operand(reg);
            tag::RESET
        }
        Action::Barrier { regs } => {
            out.u8(count(regs.len()));
            regs.iter().for_each(|reg| {
                out.operand(reg);
            });
            tag::BARRIER
        }
        Action::Call(call) => {
            flatten_call(call, out);
            tag::CALL
        }
        Action::If(condition) => {
            out.operand(&condition.reg).u32(condition.value_span).u64(condition.value);
            tag::IF
        }
    }
}

fn flatten_call(call: &Call, out: &mut Bytes) {
    out.symbol(&call.name).u8(count(call.params.len())).u8(count(call.args.len()));
    for operand in &call.args {
        out.operand(operand);
    }
    for param in &call.params {
        flatten_expr(param, out);
    }
}

/// "Expressions are in prefix order. A node is an opcode byte, a span, then data."
fn flatten_expr(expr: &Expr, out: &mut Bytes) {
    let head = |out: &mut Bytes, opcode: u8| {
        out.u8(opcode).u32(expr.span);
    };
    match &expr.node {
        Node::Pi => head(out, 0),
        Node::Real(bits) => {
            head(out, 1);
            out.u32(*bits);
        }
        Node::Int(value) => {
            head(out, 2);
            out.u64(*value);
        }
        Node::Var(name) => {
            head(out, 3);
            out.u16(*name);
        }
        Node::Binary(operator, left, right) => {
            head(out, *operator as u8);
            flatten_expr(left, out);
            flatten_expr(right, out);
        }
        Node::Unary(operator, operand) => {
            head(out, *operator as u8);
            flatten_expr(operand, out);
        }
    }
}

fn count(length: usize) -> u8 {
    u8::try_from(length).expect("a count is one byte")
}
