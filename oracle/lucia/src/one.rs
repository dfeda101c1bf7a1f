//! One opcode at a time by the unchanged `run_vm`.
//!
//! `run_vm` is given the number 1 and a watched code, which after the opcode itself gives only `MarkAddStackSize(0)`: so an
//! opcode that is counted ends at the 2nd fetch, a taken jump (not counted) at the 3rd, and `Call`, `Return`, `ReturnCall` and an
//! own error at the 1st. The fetches too many are then taken off the place.

use std::rc::Rc;

use crate::{Context, compiler::index::CodeId, executor::Executor, frame::Frame};

/// How an opcode ended.
#[derive(Debug, Clone, Copy, PartialEq, Eq)]
pub enum Ended {
    /// It is counted in its slice.
    Counted,
    /// A jump that was taken is not.
    Jumped,
    /// `Call`, `Return` or `ReturnCall` ends the slice.
    Called,
    /// An own error ends the slice, and was thrown as `step` does.
    Threw,
}

impl Executor {
    /// Carries out the next opcode of the top frame, a Lucia frame.
    pub fn one_opcode(&mut self, ctx: &mut Context) -> Ended {
        let Some(Frame::Lucia { closure, .. }) = self.frames.last() else {
            unreachable!("invalid frame type");
        };
        let code = Rc::clone(&closure.code);
        code.code.watch();
        let outcome = self.run_vm(ctx, 1);
        match (outcome, code.code.unwatch()) {
            (Ok(0), 2) => {
                self.step_back(1);
                Ended::Counted
            }
            (Ok(0), 3) => {
                self.step_back(2);
                Ended::Jumped
            }
            (Ok(1), 1) => Ended::Called,
            (Err(error), 1) => {
                self.throw_error(error);
                Ended::Threw
            }
            (outcome, fetches) => unreachable!("{outcome:?} after {fetches} fetches"),
        }
    }

    fn step_back(&mut self, fetches: usize) {
        if let Some(Frame::Lucia { pc, .. }) = self.frames.last_mut() {
            *pc = CodeId::new(pc.index() - fetches);
        }
    }
}
