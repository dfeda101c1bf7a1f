//! Carried over from the Rust's `callback.rs`: `CallbackResult`, `CallbackReturn` and `CallbackFn`.
//! Document 01's stand-in for `Box<dyn CallbackFn>`: an effect called as a function, or a host callback of number and word.

use std::{
    fmt,
    hash::{Hash, Hasher},
    rc::Rc,
};

use ordermap::OrderSet;

use crate::{
    Context,
    errors::Error,
    objects::{Function, RcEffect, Value},
};

pub type CallbackResult = Result<CallbackReturn, Error>;

#[derive(Debug, PartialEq, Eq)]
pub enum CallbackReturn {
    Call {
        function: Function,
        args: Vec<Value>,
        effect_handlers: OrderSet<RcEffect>,
    },
    Perform {
        effect: RcEffect,
        args: Vec<Value>,
    },
    TailCall {
        function: Function,
        args: Vec<Value>,
    },
    TailPerform {
        effect: RcEffect,
        args: Vec<Value>,
    },
    ReturnValue {
        value: Value,
    },
}

pub trait CallbackFn {
    fn call(&mut self, ctx: &Context, args: &[Value]) -> CallbackResult;
}

pub type RcCallback = Rc<Callback>;

#[derive(Debug, Clone, PartialEq, Eq, Hash)]
pub enum Callback {
    Effect(RcEffect),
    Host(HostCallback),
}

impl Callback {
    pub fn call(&mut self, ctx: &Context, args: &[Value]) -> CallbackResult {
        match self {
            Callback::Effect(effect) => effect.call(ctx, args),
            Callback::Host(host) => host.call(ctx, args),
        }
    }
}

impl fmt::Display for Callback {
    fn fmt(&self, f: &mut fmt::Formatter<'_>) -> fmt::Result {
        write!(f, "{self:?}")
    }
}

/// A callback of the host; `answer` is put there before the step that takes it, and is no part of the value.
#[derive(Debug)]
pub struct HostCallback {
    pub number: u32,
    pub word: u64,
    pub answer: Option<CallbackResult>,
}

impl HostCallback {
    pub fn new(number: u32, word: u64) -> Self {
        HostCallback {
            number,
            word,
            answer: None,
        }
    }
}

impl CallbackFn for HostCallback {
    fn call(&mut self, _ctx: &Context, _args: &[Value]) -> CallbackResult {
        self.answer.take().expect("the host has answered")
    }
}

impl Clone for HostCallback {
    fn clone(&self) -> Self {
        HostCallback::new(self.number, self.word)
    }
}

impl PartialEq for HostCallback {
    fn eq(&self, other: &Self) -> bool {
        (self.number, self.word) == (other.number, other.word)
    }
}

impl Eq for HostCallback {}

impl Hash for HostCallback {
    fn hash<H: Hasher>(&self, state: &mut H) {
        (self.number, self.word).hash(state);
    }
}
