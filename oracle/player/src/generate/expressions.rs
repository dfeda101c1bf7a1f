//! Values: each template leaves one more on the stack.

use super::{
    coder::{ANY, COUNTER, Coder, RESUME},
    program::{HOST, Params, effect_params},
};
use crate::{opcode::*, tree::ConstantTree};

/// How deep closures stand in closures.
const NESTING: usize = 4;

impl Coder<'_> {
    pub(super) fn int(&mut self, depth: usize) {
        match self.random.below(12) {
            0..=4 => {
                let small = self.random.below(7) as i64 - 2;
                self.load(ConstantTree::Int(small));
            }
            5 => {
                let value = *self.random.pick(&[i64::MIN, i64::MAX, -1, -7, 1 << 40]);
                self.load(ConstantTree::Int(value));
            }
            6 => self.op(LOAD_LOCAL, COUNTER),
            7..=10 if depth > 0 => {
                self.int(depth - 1);
                self.int(depth - 1);
                let opcode = *self.random.pick(&[ADD, SUB, MUL, DIV, REM]);
                self.op(opcode, 0);
            }
            7 => {
                self.load(ConstantTree::Int(8));
                self.op(NEG, 0);
            }
            11 if self.random.chance(1, 3) => self.any(depth),
            _ => self.load(ConstantTree::Int(1)),
        }
    }

    pub(super) fn bool(&mut self, depth: usize) {
        if depth == 0 || self.random.chance(1, 4) {
            let value = self.random.chance(1, 2);
            return self.load(ConstantTree::Bool(value));
        }
        match self.random.below(12) {
            0..=2 => {
                self.int(depth - 1);
                self.int(depth - 1);
                let opcode = *self.random.pick(&[GT, GE, LT, LE, EQ, NE]);
                self.op(opcode, 0);
            }
            3..=5 => self.equality(depth - 1),
            6..=7 => {
                self.any(depth - 1);
                let of = self.random.below(10) as u32;
                self.op(TYPE_CHECK, of);
            }
            8 => {
                self.bool(depth - 1);
                self.op(NOT, 0);
            }
            9..=10 => {
                if self.random.chance(1, 8) {
                    self.simple()
                } else {
                    self.bool(depth - 1)
                };
                let opcode = *self.random.pick(&[JUMP_IF_TRUE_OR_POP, JUMP_IF_FALSE_OR_POP]);
                let over = self.jump(opcode);
                self.bool(depth - 1);
                self.land(over);
            }
            _ => self.any(depth - 1),
        }
    }

    /// Compares two values, often twice the same.
    pub(super) fn equality(&mut self, depth: usize) {
        self.any(depth);
        if self.random.chance(1, 2) {
            self.op(COPY, 1);
        } else {
            self.any(depth);
        }
        let opcode = *self.random.pick(&[EQ, EQ, NE]);
        self.op(opcode, 0);
    }

    /// A value that takes no call.
    pub(super) fn simple(&mut self) {
        let upvalues = self.tree.captures.len();
        match self.random.below(8) {
            0..=2 if upvalues > 0 => {
                let index = self.random.below(upvalues) as u32;
                self.op(LOAD_UPVALUE, index);
            }
            0..=3 => {
                let value = self.random.below(9) as i64;
                self.load(ConstantTree::Int(value));
            }
            4 => self.op(LOAD_LOCAL, ANY),
            5 => self.op(LOAD_LOCAL, RESUME),
            6 => self.constant(),
            _ => {
                let count = self.random.below(3) as u32;
                (0..count).for_each(|_| self.op(LOAD_LOCAL, ANY));
                self.op(BUILD_LIST, count);
            }
        }
    }

    pub(super) fn constant(&mut self) {
        let constant = match self.random.below(9) {
            0 => ConstantTree::Null,
            1 => ConstantTree::Bool(true),
            2 => ConstantTree::Int(5),
            3 => ConstantTree::Float(0x3ff0_0000_0000_0000),
            4..=5 => ConstantTree::Str(self.random.pick(&["", "s", "text", "é"]).as_bytes().to_vec()),
            6 => ConstantTree::Bytes(self.random.pick(&[&b""[..], &b"\x00\xff"[..]]).to_vec()),
            _ => self.random.pick(&self.plan.effects).clone(),
        };
        self.load(constant);
    }

    pub(super) fn any(&mut self, depth: usize) {
        self.budget = self.budget.saturating_sub(1);
        if depth == 0 || self.budget == 0 {
            return self.simple();
        }
        let is_main = self.level == 0 && self.nesting == 0;
        match self.random.below(24) {
            9..=17 if is_main && self.random.chance(7, 8) => self.handled_call(depth - 1),
            0..=2 => self.simple(),
            3..=4 => self.int(depth - 1),
            5 => self.bool(depth - 1),
            6 => self.list(depth - 1),
            7 => {
                let name = *self.random.pick(&[8, 9, 10, 12]);
                self.load_global(name);
            }
            8 => self.null_or(depth - 1),
            9..=10 if self.inner(depth - 1).is_some() => {}
            9..=13 => {
                let count = self.callee_and_args(depth - 1);
                self.op(CALL, count);
            }
            14..=17 => self.perform(depth - 1),
            _ => self.handled_call(depth - 1),
        }
    }

    pub(super) fn handled_call(&mut self, depth: usize) {
        self.handled(depth, &mut |code| {
            let count = if code.random.chance(1, 20) { code.effect_and_args(0) } else { code.callee_and_args(0) };
            code.op(CALL, count);
        });
    }

    pub(super) fn list(&mut self, depth: usize) {
        let count = self.random.below(4);
        (0..count).for_each(|_| self.any(depth));
        self.op(BUILD_LIST, count as u32);
    }

    /// A value, or another one if it is null.
    pub(super) fn null_or(&mut self, depth: usize) {
        self.any(depth);
        let null = self.jump(JUMP_POP_IF_NULL);
        let over = self.jump(BREAK);
        self.land(null);
        self.simple();
        self.land(over);
    }

    /// A closure over this code's locals and upvalues, unless enough are written.
    pub(super) fn inner(&mut self, depth: usize) -> Option<Params> {
        if depth == 0 || self.nesting == NESTING || self.budget == 0 {
            return None;
        }
        let params = (*self.random.pick(&[0, 0, 1]), self.random.chance(1, 8));
        let captures = self.captures();
        let mut inner = Coder::new(self.random, self.plan, self.level, params);
        (inner.tree.captures, inner.nesting, inner.budget) = (captures, self.nesting + 1, self.budget / 2);
        inner.body(depth.min(2));
        let inner = inner.tree;
        self.tree.const_codes.push(inner);
        self.load(ConstantTree::Function((self.tree.const_codes.len() - 1) as u16));
        Some(params)
    }

    /// Some of this code's locals and upvalues.
    pub(super) fn captures(&mut self) -> Vec<(u16, u16)> {
        let tables = [usize::from(self.tree.locals), self.tree.captures.len()];
        let kinds: Vec<usize> = (0..self.random.below(5)).map(|_| self.random.below(2)).collect();
        let indices = kinds.into_iter().filter(|&kind| tables[kind] > 0);
        indices.map(|kind| (kind as u16, self.random.below(tables[kind]) as u16)).collect()
    }

    /// The right number of arguments mostly; gives how many.
    pub(super) fn args(&mut self, depth: usize, (params, variadic): Params) -> u32 {
        let more = if variadic { self.random.below(3) } else { 0 };
        let count = match self.random.below(50) {
            0..=1 => self.random.below(4),
            2..=6 if variadic => usize::from(params).saturating_sub(1),
            _ => usize::from(params) + more,
        };
        for _ in 0..count {
            if depth > 0 && self.random.chance(1, 3) { self.any(depth) } else { self.simple() }
        }
        count as u32
    }

    pub(super) fn callee_and_args(&mut self, depth: usize) -> u32 {
        let levels = self.plan.functions.len();
        match self.random.below(40) {
            0..=22 if self.level < levels => {
                let level = self.level + self.random.below(levels - self.level);
                self.load_global(level as u16);
                self.args(depth, self.plan.functions[level])
            }
            23..=28 => {
                let name = *self.random.pick(&HOST);
                self.load_global(name);
                let params = (self.random.below(3) as u16, false);
                self.args(depth, params)
            }
            29 if self.has_continuation => {
                self.op(LOAD_LOCAL, RESUME);
                self.args(depth, (1, false))
            }
            30 => {
                let level = self.random.below(levels); // may call itself for ever
                self.load_global(level as u16);
                self.args(depth, self.plan.functions[level])
            }
            31 => {
                self.simple();
                self.args(depth, (1, false))
            }
            32..=38 => match self.inner(depth.max(1)) {
                Some(params) => self.args(depth, params),
                None => self.effect_and_args(depth),
            },
            _ => self.effect_and_args(depth),
        }
    }

    pub(super) fn effect_and_args(&mut self, depth: usize) -> u32 {
        let effect = self.random.pick(&self.plan.effects).clone();
        let params = effect_params(&effect);
        self.load(effect);
        self.args(depth, params)
    }

    pub(super) fn perform(&mut self, depth: usize) {
        let count = self.effect_and_args(depth);
        self.op(CALL, count);
    }
}
