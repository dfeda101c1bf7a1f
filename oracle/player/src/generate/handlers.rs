//! Handlers around calls, and what they do with their continuations.

use super::{
    coder::{ANY, Coder, RESUME},
    program::{KEPT, SCRATCH, effect_params, user_effect},
};
use crate::{opcode::*, tree::ConstantTree};

impl Coder<'_> {
    /// Handlers around a call, with a part for each effect that takes the continuation.
    pub(super) fn handled(&mut self, depth: usize, call: &mut dyn FnMut(&mut Self)) {
        let mut effects = self.plan.effects.clone();
        while effects.len() > 1 && self.random.chance(1, 3) {
            effects.remove(self.random.below(effects.len()));
        }
        let first = self.register_all(&effects);
        call(self);
        let mut outs = vec![self.jump(JUMP)];
        let again = self.here();
        let second = self.register_all(&effects);
        self.resume();
        outs.push(self.jump(BREAK));
        for (effect, handlers) in effects.iter().zip(first.into_iter().zip(second)) {
            self.land(handlers.0);
            self.land(handlers.1);
            self.take_operation(effect);
            self.use_continuation(depth, Some(again));
            outs.push(self.jump(BREAK));
        }
        outs.into_iter().for_each(|out| self.land(out));
    }

    /// Registers the effects; their targets come later.
    pub(super) fn register_all(&mut self, effects: &[ConstantTree]) -> Vec<usize> {
        let mut handlers = Vec::new();
        for effect in effects {
            self.load(effect.clone());
            handlers.push(self.jump(REGISTER_HANDLER));
        }
        handlers
    }

    /// Takes effect, arguments and continuation off the stack.
    pub(super) fn take_operation(&mut self, effect: &ConstantTree) {
        let (params, variadic) = effect_params(effect);
        match self.random.below(30) {
            0..=4 => {
                let more = u16::from(!self.random.chance(1, 8));
                self.load(user_effect("check", params + more, variadic));
                self.op(CHECK_EFFECT, params.into());
            }
            5 => {
                self.constant();
                self.op(CHECK_EFFECT, 77);
            }
            _ => self.op(POP, 0),
        }
        for _ in 0..params + u16::from(variadic) {
            self.op(STORE_LOCAL, ANY);
        }
        self.op(STORE_LOCAL, RESUME);
        self.has_continuation = true;
    }

    pub(super) fn resume(&mut self) {
        self.op(LOAD_LOCAL, RESUME);
        self.simple();
        self.op(CALL, 1);
    }

    /// What a handler does with its continuation; leaves one value, or goes `again` to register and resume.
    pub(super) fn use_continuation(&mut self, depth: usize, again: Option<u32>) {
        match (self.random.below(24), again) {
            (16.., Some(again)) => self.op(JUMP_BACK_EDGE, again),
            (0..=3 | 16.., _) => self.resume(),
            (4..=7, _) => {
                self.resume();
                self.op(STORE_LOCAL, ANY);
                self.resume();
            }
            (8..=10, _) => {
                self.op(LOAD_LOCAL, RESUME);
                let name = *self.random.pick(&KEPT);
                self.store_global(name);
                self.simple();
            }
            (11, _) => {
                self.op(LOAD_LOCAL, RESUME);
                self.simple();
                self.op(RETURN_CALL, 1);
            }
            (12, _) => {
                self.op(LOAD_LOCAL, RESUME);
                self.op(LOAD_LOCAL, ANY);
                self.op(BUILD_LIST, 2);
                self.op(COPY, 1);
                self.store_global(SCRATCH[0]);
            }
            (13, _) => self.pass_on(depth),
            (14, _) => {
                self.op(LOAD_LOCAL, RESUME);
                let count = self.args(0, (0, false));
                self.op(CALL, count);
            }
            _ => self.any(depth),
        }
    }

    /// Gives the continuation to a function of a higher level, or to itself twice.
    pub(super) fn pass_on(&mut self, depth: usize) {
        let levels = self.plan.functions.len();
        if self.level < levels {
            let level = self.level + self.random.below(levels - self.level);
            self.load_global(level as u16);
        } else {
            self.op(LOAD_LOCAL, RESUME);
        }
        self.op(LOAD_LOCAL, RESUME);
        self.op(CALL, 1);
        if depth > 1 {
            self.op(STORE_LOCAL, ANY);
            self.resume();
        }
    }
}
