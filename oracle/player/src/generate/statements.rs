//! Statements: they leave the stack as it was.

use super::{
    coder::{ANY, COUNTER, Coder, RESUME},
    program::{KEPT, SCRATCH},
};
use crate::{
    image::{OperandKind, Table, operand_kind},
    opcode::*,
    tree::ConstantTree,
};

impl Coder<'_> {
    /// Statements, then a value returned or a tail call.
    pub(super) fn body(&mut self, depth: usize) {
        let given = usize::from(self.tree.params) + usize::from(self.tree.variadic);
        for _ in 0..given {
            if self.random.chance(9, 10) {
                let local = *self.random.pick(&[ANY, ANY, RESUME]);
                self.op(STORE_LOCAL, local);
            }
        }
        if self.random.chance(9, 10) {
            self.load(ConstantTree::Int(2));
            self.op(STORE_LOCAL, COUNTER);
        }
        if given == 0 && self.random.chance(2, 3) {
            self.constant();
            self.op(STORE_LOCAL, ANY);
        }
        for _ in 0..1 + self.random.below(4) {
            self.statement(depth);
        }
        if self.random.chance(1, 5) {
            let count = self.callee_and_args(depth);
            self.op(RETURN_CALL, count);
        } else {
            self.any(depth);
        }
        self.op(RETURN, 0);
    }

    pub(super) fn statement(&mut self, depth: usize) {
        if self.random.chance(1, 50) {
            self.noise();
        }
        match self.random.below(20) {
            0..=3 => {
                self.any(depth);
                self.op(STORE_LOCAL, ANY);
            }
            4 => {
                self.any(depth);
                let name = *self.random.pick(&SCRATCH);
                self.store_global(name);
            }
            5..=6 => {
                self.any(depth);
                self.op(POP, 0);
            }
            7..=9 if self.level > 0 => {
                self.perform(0);
                self.op(STORE_LOCAL, ANY);
            }
            7..=12 => self.branch(depth),
            13..=14 => self.counted_loop(depth),
            15..=16 => self.resume_kept(),
            17 => self.shuffle(depth),
            18 => self.marks(),
            _ if self.random.chance(1, 8) => {
                let target = self.here();
                self.op(JUMP, target);
            }
            _ => {
                self.register();
            }
        }
    }

    /// A handler that stays registered without a call under it.
    pub(super) fn register(&mut self) {
        let effect = self.random.pick(&self.plan.effects).clone();
        self.load(effect);
        let target = self.random.below(self.tree.opcodes.len()) as u32;
        self.op(REGISTER_HANDLER, target);
    }

    pub(super) fn marks(&mut self) {
        let count = if self.random.chance(1, 3) { 55 + self.random.below(15) } else { self.random.below(5) };
        for _ in 0..count {
            self.op(MARK_ADD_STACK_SIZE, count as u32);
        }
    }

    pub(super) fn branch(&mut self, depth: usize) {
        self.bool(depth);
        let opcode = *self.random.pick(&[POP_JUMP_IF_FALSE, POP_JUMP_IF_TRUE]);
        let over = self.jump(opcode);
        if depth > 0 {
            self.statement(depth - 1);
        }
        self.land(over);
    }

    pub(super) fn counted_loop(&mut self, depth: usize) {
        let times = self.random.below(5) as i64;
        self.load(ConstantTree::Int(times));
        self.op(STORE_LOCAL, COUNTER);
        let top = self.here();
        self.op(LOAD_LOCAL, COUNTER);
        self.load(ConstantTree::Int(0));
        self.op(GT, 0);
        let out = self.jump(POP_JUMP_IF_FALSE);
        self.op(LOAD_LOCAL, COUNTER);
        self.load(ConstantTree::Int(1));
        self.op(SUB, 0);
        self.op(STORE_LOCAL, COUNTER);
        if depth > 0 {
            self.statement(depth - 1);
        }
        let again = *self.random.pick(&[JUMP_BACK_EDGE, CONTINUE, JUMP]);
        self.op(again, top);
        self.land(out);
    }

    /// Calls the continuation kept in a global, mostly only if there is one.
    pub(super) fn resume_kept(&mut self) {
        let name = *self.random.pick(&KEPT);
        self.load_global(name);
        let over = if self.random.chance(7, 8) {
            self.op(TYPE_CHECK, 7);
            let over = self.jump(POP_JUMP_IF_FALSE);
            self.load_global(name);
            Some(over)
        } else {
            None
        };
        if self.random.chance(1, 2) {
            self.load(ConstantTree::Null);
            self.store_global(name); // so that it is not resumed for ever
        }
        self.simple();
        self.op(CALL, 1);
        self.op(POP, 0);
        if let Some(over) = over {
            self.land(over);
        }
    }

    /// Puts values in another order and keeps the top one where it is seen.
    pub(super) fn shuffle(&mut self, depth: usize) {
        self.any(depth.min(1));
        self.load(ConstantTree::Int(7));
        self.load(ConstantTree::Int(8));
        let opcode = *self.random.pick(&[COPY, SWAP]);
        let back = 1 + self.random.below(3) as u32;
        self.op(opcode, back);
        self.store_global(SCRATCH[1]);
        for _ in 0..2 + u32::from(opcode == COPY) {
            self.op(STORE_LOCAL, ANY);
        }
    }

    /// Any opcode with an operand in its table, whatever the stack holds.
    pub(super) fn noise(&mut self) {
        let opcode = self.random.below(52) as u16;
        let size = match operand_kind(opcode) {
            None => return,
            Some(OperandKind::Unused) => 1,
            Some(OperandKind::Count) => 4,
            Some(OperandKind::Type) => 10,
            Some(OperandKind::Target) => self.tree.opcodes.len() + 1,
            Some(OperandKind::Index(Table::Locals)) => usize::from(self.tree.locals),
            Some(OperandKind::Index(Table::Globals)) => self.tree.globals.len(),
            Some(OperandKind::Index(Table::Captures)) => self.tree.captures.len(),
            Some(OperandKind::Index(Table::Constants)) => self.tree.constants.len(),
        };
        if size > 0 {
            let operand = self.random.below(size) as u32;
            self.op(opcode, operand);
        }
    }

    /// A body that calls function 0 as often as its argument says, and does something at the bottom.
    pub(super) fn call_itself(&mut self) {
        self.op(COPY, 1);
        self.load(ConstantTree::Int(0));
        self.op(GT, 0);
        let bottom = self.jump(POP_JUMP_IF_FALSE);
        self.load_global(0);
        self.op(COPY, 2);
        self.load(ConstantTree::Int(1));
        self.op(SUB, 0);
        self.op(CALL, 1);
        self.op(RETURN, 0);
        self.land(bottom);
        match self.random.below(4) {
            0 => self.op(NOT, 0),
            1 => self.perform(0),
            _ => self.any(2),
        }
        self.op(RETURN, 0);
    }
}
