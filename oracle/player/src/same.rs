//! Whether two states of the Rust are the same, objects paired by the order in which they are met.
//! The derived equality would compare shared objects again at each place where they stand, which can take for ever.

use std::{collections::HashMap, rc::Rc};

use lucia::{
    Context,
    errors::Error,
    executor::{Executor, ExecutorResult},
    frame::Frame,
    objects::{Function, RcClosure, Table, Value},
};

use crate::values::address;

/// Objects of the one state with those of the other.
#[derive(Default)]
pub struct Same {
    pairs: HashMap<*const (), *const ()>,
}

impl Same {
    pub fn states(&mut self, one: (&Executor, &Context), other: (&Executor, &Context)) -> bool {
        let ((executor, context), (other_executor, other_context)) = (one, other);
        self.all_frames(&executor.frames, &other_executor.frames)
            && self.results(executor.result.as_ref(), other_executor.result.as_ref())
            && self.tables(&context.globals, &other_context.globals)
            && self.tables(&context.builtins, &other_context.builtins)
    }

    fn all_frames(&mut self, one: &[Frame], other: &[Frame]) -> bool {
        one.len() == other.len() && one.iter().zip(other).all(|(one, other)| self.frames(one, other))
    }

    fn frames(&mut self, one: &Frame, other: &Frame) -> bool {
        match (one, other) {
            (
                Frame::Lucia { pc, closure, locals, stack, effect_handlers },
                Frame::Lucia { pc: pc2, closure: closure2, locals: locals2, stack: stack2, effect_handlers: handlers2 },
            ) => {
                pc == pc2
                    && effect_handlers == handlers2
                    && self.values([closure_value(closure)].iter(), [closure_value(closure2)].iter())
                    && self.values(locals.iter(), locals2.iter())
                    && self.values(stack.iter(), stack2.iter())
            }
            (
                Frame::Callback { callback, stack, effect_handlers },
                Frame::Callback { callback: callback2, stack: stack2, effect_handlers: handlers2 },
            ) => callback == callback2 && effect_handlers == handlers2 && self.values(stack.iter(), stack2.iter()),
            _ => false,
        }
    }

    fn results(&mut self, one: Option<&ExecutorResult>, other: Option<&ExecutorResult>) -> bool {
        use ExecutorResult::{Effect, Error as Failed, Value as Returned};
        match (one, other) {
            (None, None) => true,
            (Some(Returned { value }), Some(Returned { value: value2 })) => self.value(value, value2),
            (Some(Failed { error }), Some(Failed { error: error2 })) => match (error, error2) {
                (Error::LuciaError(value), Error::LuciaError(value2))
                | (Error::LuciaPanic(value), Error::LuciaPanic(value2)) => self.value(value, value2),
                _ => error == error2,
            },
            (Some(Effect { effect, args }), Some(Effect { effect: effect2, args: args2 })) => {
                effect == effect2 && self.values(args.iter(), args2.iter())
            }
            _ => false,
        }
    }

    fn tables(&mut self, one: &Table, other: &Table) -> bool {
        let (one, other): (Vec<_>, Vec<_>) = (one.iter().collect(), other.iter().collect());
        one.len() == other.len()
            && one.iter().zip(&other).all(|((name, value), (name2, value2))| name == name2 && self.value(value, value2))
    }

    fn values<'a>(
        &mut self,
        one: impl ExactSizeIterator<Item = &'a Value>,
        other: impl ExactSizeIterator<Item = &'a Value>,
    ) -> bool {
        one.len() == other.len() && one.zip(other).all(|(one, other)| self.value(one, other))
    }

    fn value(&mut self, one: &Value, other: &Value) -> bool {
        match (address(one), address(other)) {
            (None, None) => one == other,
            (Some(address), Some(address2)) if address == address2 => true,
            (Some(address), Some(address2)) => match self.pairs.insert(address, address2) {
                Some(paired) => paired == address2,
                None => self.objects(one, other),
            },
            _ => false,
        }
    }

    fn objects(&mut self, one: &Value, other: &Value) -> bool {
        match (one, other) {
            (Value::Table(list), Value::Table(list2)) => self.values(list.items().iter(), list2.items().iter()),
            (Value::Function(Function::Closure(closure)), Value::Function(Function::Closure(closure2))) => {
                Rc::ptr_eq(&closure.code, &closure2.code)
                    && self.values(closure.upvalues.iter(), closure2.upvalues.iter())
            }
            (Value::Function(Function::Continuation(held)), Value::Function(Function::Continuation(held2))) => {
                self.all_frames(&held.frames, &held2.frames)
            }
            _ => false,
        }
    }
}

fn closure_value(closure: &RcClosure) -> Value {
    Value::Function(Rc::clone(closure).into())
}

/// A state in few words, objects by their type only, for a message.
pub fn outline(executor: &Executor) -> String {
    let kinds = |values: &[Value]| values.iter().map(kind).collect::<Vec<_>>().join(", ");
    let frames = executor.frames.iter().map(|frame| match frame {
        Frame::Lucia { pc, locals, stack, effect_handlers, .. } => {
            let locals: Vec<Value> = locals.iter().cloned().collect();
            let handlers = effect_handlers.len();
            format!("place {pc} locals [{}] handlers {handlers} stack [{}]", kinds(&locals), kinds(stack))
        }
        Frame::Callback { callback, stack, effect_handlers } => {
            format!("{callback} handlers {} stack [{}]", effect_handlers.len(), kinds(stack))
        }
    });
    let result = match &executor.result {
        None => "none",
        Some(ExecutorResult::Value { .. }) => "a value",
        Some(ExecutorResult::Error { .. }) => "an error",
        Some(ExecutorResult::Effect { .. }) => "an effect",
    };
    format!("{}\nresult {result}", frames.collect::<Vec<_>>().join("\n"))
}

fn kind(value: &Value) -> String {
    match address(value) {
        Some(_) => value.value_type().to_string(),
        None => value.to_string(),
    }
}
