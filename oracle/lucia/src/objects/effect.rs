//! Carried over from the Rust's `effect.rs`: all but metamethods (`meta_call` stands in `value.rs`) and texts.
//! Effects are equal by document 01 since an effect's parameters all have one name (`str.rs`).

use std::{fmt, rc::Rc};

use crate::{
    Context,
    compiler::code::{CodeParamsInfo, EffectConst, UserEffect},
    objects::{CallbackFn, CallbackReturn, RcStr, Value},
};

pub use crate::compiler::value::BuiltinEffect;

pub type RcEffect = Rc<Effect>;

#[derive(Debug, Clone, PartialEq, Eq, Hash)]
pub enum Effect {
    User(Rc<UserEffect<RcStr>>),
    Builtin(BuiltinEffect),
}

impl Effect {
    pub fn new(effect: EffectConst<RcStr>) -> Self {
        match effect {
            EffectConst::User(v) => Effect::User(v),
            EffectConst::Builtin(v) => Effect::Builtin(v),
        }
    }

    pub fn params_info(&self) -> CodeParamsInfo {
        match self {
            Effect::User(effect) => effect.params.info(),
            Effect::Builtin(BuiltinEffect::Yield | BuiltinEffect::Error | BuiltinEffect::Panic) => {
                CodeParamsInfo {
                    params_count: 1,
                    has_variadic: false,
                }
            }
        }
    }

    pub(crate) fn match_effect_handler(&self, expected: &RcEffect) -> bool {
        let params_info = self.params_info();
        let expected_params_info = expected.params_info();
        (params_info.params_count + 1 == expected_params_info.params_count)
            && (params_info.has_variadic == expected_params_info.has_variadic)
    }
}

impl fmt::Display for Effect {
    fn fmt(&self, f: &mut fmt::Formatter<'_>) -> fmt::Result {
        write!(f, "{self:?}")
    }
}

impl CallbackFn for RcEffect {
    fn call(&mut self, _ctx: &Context, args: &[Value]) -> super::CallbackResult {
        Ok(CallbackReturn::TailPerform {
            effect: Rc::clone(self),
            args: args.to_vec(),
        })
    }
}

impl From<Effect> for Value {
    fn from(value: Effect) -> Self {
        Value::Effect(Rc::new(value))
    }
}
