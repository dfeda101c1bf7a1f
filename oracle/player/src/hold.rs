//! The Rust set to what memory holds, so that a call can be played on a state that no list of calls led to.

use std::rc::Rc;

use lucia::{
    compiler::index::CodeId,
    errors::Error,
    executor::{Executor, ExecutorResult},
    frame::{EffectHandlerInfo, Frame},
    objects::{Callback, Closure, Continuation, Function, HostCallback, RcEffect, Value},
};

use crate::{
    cell::{Cell, tag},
    driver::Loaded,
    image::Program,
    link::{Linked, name},
    snapshot::{self, FrameKind, Handler, Object, Outcome, Snapshot},
};

/// An accepted image, ready to be loaded with any state.
pub struct Ready {
    linked: Rc<Linked>,
}

impl Ready {
    pub fn new(image: &[u8], program: Program) -> Ready {
        Ready { linked: Rc::new(Linked::new(image, program)) }
    }
}

impl Loaded {
    /// A machine that holds a snapshot in form; nothing where the Rust can't: a frame of it handles equal effects twice. An error as result is held as
    /// another error, since any number may stand in its fields: no call looks at them.
    pub(crate) fn holding(ready: &Ready, snapshot: &Snapshot) -> Option<Loaded> {
        let mut loaded = Loaded::new(Rc::clone(&ready.linked));
        for object in &snapshot.store {
            let value = loaded.object_value(object)?;
            loaded.store.add(value);
        }
        loaded.executor = Executor { frames: loaded.rust_frames(&snapshot.frames)?, result: loaded.result(snapshot)? };
        let tables = [(&snapshot.globals, true), (&snapshot.builtins, false)];
        for (cells, is_global) in tables {
            for (&cell, number) in cells.iter().zip(0..).filter(|(cell, _)| **cell != Cell::NULL) {
                let value = loaded.of_cell(cell)?;
                let context = &mut loaded.context;
                let table = if is_global { &mut context.globals } else { &mut context.builtins };
                table.set(name(number), value);
            }
        }
        (loaded.wait, loaded.left) = (snapshot.wait, snapshot.left);
        Some(loaded)
    }

    fn of_cell(&self, cell: Cell) -> Option<Value> {
        self.store.value(&self.linked, cell)
    }

    fn of_cells(&self, cells: &[Cell]) -> Option<Vec<Value>> {
        cells.iter().map(|&cell| self.of_cell(cell)).collect()
    }

    fn object_value(&self, object: &Object) -> Option<Value> {
        Some(match object {
            Object::Closure { code, upvalues } => {
                let upvalues = self.of_cells(upvalues)?.into();
                Closure { code: self.linked.code(*code), upvalues }.into()
            }
            Object::List(items) => self.of_cells(items)?.into(),
            Object::Continuation(frames) => Continuation::new(self.rust_frames(frames)?).into(),
        })
    }

    fn rust_frames(&self, frames: &[snapshot::Frame]) -> Option<Vec<Frame>> {
        frames.iter().map(|frame| self.rust_frame(frame)).collect()
    }

    fn rust_frame(&self, frame: &snapshot::Frame) -> Option<Frame> {
        let stack = self.of_cells(&frame.stack)?;
        let effects = frame.handlers.iter().map(|handler| self.effect(handler.effect)).collect::<Option<Vec<_>>>()?;
        let callback = match frame.kind {
            FrameKind::Lucia { closure, place } => {
                let closure = match self.of_cell(Cell::new(tag::CLOSURE, closure, 0))? {
                    Value::Function(Function::Closure(closure)) => closure,
                    _ => return None,
                };
                let infos = frame.handlers.iter().map(|&Handler { target, stack_size, .. }| EffectHandlerInfo {
                    jump_target: CodeId::new(target as usize),
                    stack_size: stack_size as usize,
                });
                let lucia = Frame::Lucia {
                    pc: CodeId::new(place as usize),
                    closure,
                    locals: self.of_cells(&frame.locals)?.into(),
                    stack,
                    effect_handlers: effects.into_iter().zip(infos).collect(),
                };
                return self.holds_all(lucia, frame);
            }
            FrameKind::Host { number, word } => Callback::Host(HostCallback::new(number, word)),
            FrameKind::Effect { effect } => Callback::Effect(self.effect(effect)?),
        };
        self.holds_all(Frame::Callback { callback, stack, effect_handlers: effects.into_iter().collect() }, frame)
    }

    /// Equal effects were dropped if the frame has fewer handlers.
    fn holds_all(&self, made: Frame, frame: &snapshot::Frame) -> Option<Frame> {
        (self.store.frame(&made) == *frame).then_some(made)
    }

    fn effect(&self, cell: Cell) -> Option<RcEffect> {
        match self.of_cell(cell)? {
            Value::Effect(effect) => Some(effect),
            _ => None,
        }
    }

    fn result(&self, snapshot: &Snapshot) -> Option<Option<ExecutorResult>> {
        Some(match &snapshot.result {
            Outcome::None => None,
            Outcome::Value(value) => Some(ExecutorResult::Value { value: self.of_cell(*value)? }),
            Outcome::Error(_) => Some(ExecutorResult::Error { error: Error::ZeroDivisor }),
            Outcome::Effect { effect, args } => {
                Some(ExecutorResult::Effect { effect: self.effect(*effect)?, args: self.of_cells(args)? })
            }
        })
    }
}

#[cfg(test)]
mod tests {
    use super::Ready;
    use crate::{
        call::Machine,
        driver::Driver,
        generate::{self, State},
        image,
        snapshot::{Fault, Outcome},
    };

    #[test]
    fn every_state_of_random_lists_can_be_held() {
        let mut count = 0;
        for State { image, mut snapshot } in (0..300).flat_map(generate::states) {
            let program = image::parse(&image).expect("a loaded image is accepted");
            let driver =
                Driver::holding(&Ready::new(&image, program), &snapshot).expect("no frame handles equal effects twice");
            if matches!(snapshot.result, Outcome::Error(_)) {
                snapshot.result = Outcome::Error(Fault::ZeroDivisor);
            }
            assert_eq!(driver.snapshot(), snapshot);
            count += 1;
        }
        assert!(count > 2_500, "{count} states");
    }
}
