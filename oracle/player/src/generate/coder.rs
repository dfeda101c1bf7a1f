//! Writes one code, opcode by opcode.

use super::program::{Params, Plan};
use crate::{
    opcode::*,
    random::Random,
    tree::{CodeTree, ConstantTree},
};

/// Locals of every code: a counter of loops, a place for any value, and one for a continuation.
pub(super) const COUNTER: u32 = 0;
pub(super) const ANY: u32 = 1;
pub(super) const RESUME: u32 = 2;

/// Writes one code.
pub(super) struct Coder<'a> {
    pub(super) random: &'a mut Random,
    pub(super) plan: &'a Plan,
    pub(super) tree: CodeTree,
    /// Functions of a higher level are called, so that most calls end.
    pub(super) level: usize,
    /// How many closures stand around this one.
    pub(super) nesting: usize,
    /// How many more values may be written.
    pub(super) budget: usize,
    /// A handler stands in front of what is written now.
    pub(super) has_continuation: bool,
}

impl<'a> Coder<'a> {
    pub(super) fn new(random: &'a mut Random, plan: &'a Plan, level: usize, (params, variadic): Params) -> Coder<'a> {
        let stack_size = random.below(300) as u16;
        let tree = CodeTree { params, variadic, locals: 3, stack_size, ..CodeTree::default() };
        Coder { random, plan, tree, level, nesting: 0, budget: 40, has_continuation: false }
    }

    pub(super) fn op(&mut self, opcode: u16, operand: u32) {
        self.tree.opcodes.push((opcode, operand));
    }

    pub(super) fn here(&self) -> u32 {
        self.tree.opcodes.len() as u32
    }

    /// A jump or a handler whose target comes later; `land` sets it.
    pub(super) fn jump(&mut self, opcode: u16) -> usize {
        self.op(opcode, 0);
        self.tree.opcodes.len() - 1
    }

    pub(super) fn land(&mut self, jump: usize) {
        self.tree.opcodes[jump].1 = self.here();
    }

    pub(super) fn load(&mut self, constant: ConstantTree) {
        let known = self.tree.constants.iter().position(|known| *known == constant);
        let index = match known {
            Some(index) if !self.random.chance(1, 8) => index,
            _ => {
                self.tree.constants.push(constant);
                self.tree.constants.len() - 1
            }
        };
        self.op(LOAD_CONST, index as u32);
    }

    pub(super) fn global(&mut self, name: u16) -> u32 {
        let globals = &mut self.tree.globals;
        let index = globals.iter().position(|&known| known == name).unwrap_or_else(|| {
            globals.push(name);
            globals.len() - 1
        });
        index as u32
    }

    pub(super) fn load_global(&mut self, name: u16) {
        let index = self.global(name);
        self.op(LOAD_GLOBAL, index);
    }

    pub(super) fn store_global(&mut self, name: u16) {
        let index = self.global(name);
        self.op(STORE_GLOBAL, index);
    }
}
