//! The smallest image that still shows a difference, as far as leaving out fields, names and bytes goes.

use model::ast::*;
use model::flatten::flatten;
use model::read::read;

/// Images past this many bytes are only cut by whole fields.
const SHORT: usize = 400;

/// So many tries for a short image, and for a long one, on which each takes long too.
const TRIES: [usize; 2] = [3_000, 200];

/// Leaves out whatever can be left out while `differs` holds of what is left.
pub fn shrink(image: &[u8], differs: &mut dyn FnMut(&[u8]) -> bool) -> Vec<u8> {
    let tries = TRIES[usize::from(image.len() > 10 * SHORT)];
    let mut shrinker = Shrinker { image: image.to_vec(), differs, tries };
    loop {
        let before = shrinker.image.len();
        shrinker.fields();
        shrinker.names();
        if shrinker.image.len() <= SHORT {
            shrinker.bytes();
        }
        if shrinker.image.len() == before {
            return shrinker.image;
        }
    }
}

struct Shrinker<'a> {
    image: Vec<u8>,
    differs: &'a mut dyn FnMut(&[u8]) -> bool,
    tries: usize,
}

impl Shrinker<'_> {
    /// Puts `shorter` in the image's place if the difference is still there.
    fn take(&mut self, shorter: Vec<u8>) -> bool {
        self.tries = self.tries.saturating_sub(1);
        let better = shorter.len() < self.image.len() && (self.differs)(&shorter);
        if better {
            self.image = shorter;
        }
        better
    }

    /// Stretches of fields, long ones first: a body goes with its gate and its END.
    fn fields(&mut self) {
        let mut length = starts(&self.image).len();
        while length > 0 {
            let mut first = 0;
            let mut starts = starts(&self.image);
            while first + length < starts.len() && self.tries > 0 {
                let (front, rest) = (&self.image[..starts[first]], &self.image[starts[first + length]..]);
                if self.take([front, rest].concat()) {
                    starts = self::starts(&self.image);
                } else {
                    first += if length > 40 { length / 4 } else { 1 };
                }
            }
            length = if length > 40 { length / 2 } else { length - 1 };
        }
    }

    fn bytes(&mut self) {
        let mut at = 0;
        while at < self.image.len() && self.tries > 0 {
            if !self.take([&self.image[..at], &self.image[at + 1..]].concat()) {
                at += 1;
            }
        }
    }

    /// Names that nothing uses, the later ones being numbered again.
    fn names(&mut self) {
        let count = read(&self.image).map_or(0, |program| program.names.len() as u16);
        for unused in (0..count).rev() {
            let Ok(mut program) = read(&self.image) else { return };
            let mut used = false;
            each_name(&mut program, &mut |name| used |= *name == unused);
            if !used && self.tries > 0 {
                program.names.remove(usize::from(unused));
                each_name(&mut program, &mut |name| *name -= u16::from(*name > unused));
                self.take(flatten(&program));
            }
        }
    }
}

/// Where fields start, by their lengths, and the image's end.
fn starts(image: &[u8]) -> Vec<usize> {
    let mut starts = Vec::new();
    let mut at = 0;
    while at < image.len() {
        starts.push(at);
        let Some(length) = image.get(at + 1..at + 3) else { break };
        at += 3 + usize::from(u16::from_le_bytes([length[0], length[1]]));
    }
    starts.push(image.len());
    starts
}

/// Visits every name number.
fn each_name(program: &mut Program, visit: &mut dyn FnMut(&mut u16)) {
    for decl in &mut program.decls {
        match decl {
            Decl::Include(file) => visit(&mut file.name),
            Decl::Register(register) => visit(&mut register.operand.name),
            Decl::Stmt(stmt) => in_stmt(stmt, visit),
            Decl::Gate(gate) => {
                visit(&mut gate.name.name);
                gate.params.iter_mut().chain(&mut gate.args).for_each(|symbol| visit(&mut symbol.name));
                gate.body.iter_mut().flatten().for_each(|stmt| in_stmt(stmt, visit));
            }
        }
    }
}

fn in_stmt(stmt: &mut Stmt, visit: &mut dyn FnMut(&mut u16)) {
    match &mut stmt.action {
        Action::U { reg, angles } => {
            visit(&mut reg.name);
            angles.iter_mut().for_each(|angle| in_expr(angle, visit));
        }
        Action::Cx { copy: first, xor: second } | Action::Measure { from: first, to: second } => {
            visit(&mut first.name);
            visit(&mut second.name);
        }
        Action::Reset { reg } => visit(&mut reg.name),
        Action::Barrier { regs } => regs.iter_mut().for_each(|reg| visit(&mut reg.name)),
        Action::Call(call) => {
            visit(&mut call.name.name);
            call.args.iter_mut().for_each(|arg| visit(&mut arg.name));
            call.params.iter_mut().for_each(|param| in_expr(param, visit));
        }
        Action::If(condition) => {
            visit(&mut condition.reg.name);
            in_stmt(&mut condition.then, visit);
        }
    }
}

fn in_expr(expr: &mut Expr, visit: &mut dyn FnMut(&mut u16)) {
    match &mut expr.node {
        Node::Pi | Node::Real(_) | Node::Int(_) => (),
        Node::Var(name) => visit(name),
        Node::Binary(_, left, right) => {
            in_expr(left, visit);
            in_expr(right, visit);
        }
        Node::Unary(_, operand) => in_expr(operand, visit),
    }
}
