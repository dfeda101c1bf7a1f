//! The unchanged Rust: `start`, then `step` until it is done.

use std::{rc::Rc, time::Duration};

use lucia::{
    Context,
    executor::{Executor, ExecutorResult},
    frame::Frame,
    fuel::Fuel,
    objects::{Callback, CallbackReturn, Closure, Function, HostCallback, Value},
};
use player::{
    image::Program,
    link::{Linked, name},
};

use crate::{
    clock::timed,
    scripts::Script,
    shared::{ANSWER, FUEL, HOST_NUMBER, Left},
};

/// The machine as the timed run finds it; the codes are made of the image once, and not timed.
pub struct Rust {
    executor: Executor,
    context: Context,
    calls_host: bool,
    /// Fuel charged until so many frames stood.
    pub spent: i32,
}

impl Rust {
    pub fn new(script: &Script, image: &[u8], program: Program) -> Rust {
        let linked = Linked::new(image, program);
        let mut executor = Executor::new();
        executor.start(Function::Closure(Rc::new(Closure::new(linked.outermost()))), Vec::new());
        let mut context = Context::empty();
        let callback = Callback::Host(HostCallback::new(HOST_NUMBER, 0));
        context.globals.set(name(0), Value::Function(Rc::new(callback).into()));
        let mut fuel = one_step_each();
        while executor.frames.len() < script.frames {
            executor.step(&mut context, &mut fuel);
        }
        let spent = FUEL - fuel.remaining();
        Rust { executor, context, calls_host: script.host.is_some(), spent }
    }

    /// One run from a copy, which is not timed, nor is the dropping of what the run left.
    pub fn round(&self) -> (Duration, Left) {
        let (mut executor, mut context) = (self.executor.clone(), self.context.clone());
        let (time, fuel) = timed(|| match self.calls_host {
            true => run_with_host(&mut executor, &mut context),
            false => run(&mut executor, &mut context),
        });
        let value = match executor.result {
            Some(ExecutorResult::Value { value: Value::Int(value) }) => Some(value),
            _ => None,
        };
        (time, Left { value, fuel: fuel.remaining() })
    }
}

/// Fuel with the mark set, by which `step` ends after each slice and callback.
fn one_step_each() -> Fuel {
    let mut fuel = Fuel::with(FUEL);
    fuel.interrupt();
    fuel
}

fn run(executor: &mut Executor, context: &mut Context) -> Fuel {
    let mut fuel = Fuel::with(FUEL);
    while !executor.step(context, &mut fuel) {}
    fuel
}

/// The Rust has no wait, so that the host must see to it that its answer is there before the step that takes it.
fn run_with_host(executor: &mut Executor, context: &mut Context) -> Fuel {
    let mut fuel = one_step_each();
    while !executor.step(context, &mut fuel) {
        if let Some(Frame::Callback { callback: Callback::Host(host), .. }) = executor.frames.last_mut() {
            host.answer = Some(Ok(CallbackReturn::ReturnValue { value: Value::Int(ANSWER) }));
        }
    }
    fuel
}
