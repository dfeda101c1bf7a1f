//! A program as the Rust's codes.

use std::{collections::HashMap, rc::Rc};

use lucia::{
    compiler::{
        code::{Code, CodeParams, ConstValue, EffectConst, UpvalueCapture, UserEffect},
        index::{CodeId, ConstCodeId, ConstId, GlobalNameId, LocalNameId, UpvalueNameId},
        opcode::OpCode,
        value::{BuiltinEffect, ValueType},
    },
    objects::{Origin, RcStr, Str},
    utils::Float,
};
use oxc_index::IndexVec;

use crate::image::{self, Constant, Part, Program};

pub const BUILTIN_EFFECTS: [BuiltinEffect; 3] = [BuiltinEffect::Yield, BuiltinEffect::Error, BuiltinEffect::Panic];

const TYPES: [ValueType; 10] = [
    ValueType::Null,
    ValueType::Bool,
    ValueType::Int,
    ValueType::Float,
    ValueType::Str,
    ValueType::Bytes,
    ValueType::Table,
    ValueType::Function,
    ValueType::Effect,
    ValueType::UserData,
];

/// An accepted image with its program, and the Rust's codes of it.
pub struct Linked {
    pub image: Vec<u8>,
    pub program: Program,
    codes: Vec<Rc<Code<RcStr>>>,
    numbers: HashMap<*const Code<RcStr>, u32>,
}

impl Linked {
    pub fn new(image: &[u8], program: Program) -> Linked {
        // A code begins before those in it, so those are made first from the back.
        let mut codes: Vec<Option<Rc<Code<RcStr>>>> = vec![None; program.codes.len()];
        for (number, code) in program.codes.iter().enumerate().rev() {
            let inner = code.const_codes.iter().map(|&inner| codes[inner].clone().expect("it begins later"));
            codes[number] = Some(Rc::new(link_code(image, number as u32, code, inner.collect())));
        }
        let codes: Vec<_> = codes.into_iter().flatten().collect();
        let numbers = (0..).zip(&codes).map(|(number, code)| (Rc::as_ptr(code), number)).collect();
        Linked { image: image.to_vec(), program, codes, numbers }
    }

    pub fn outermost(&self) -> Rc<Code<RcStr>> {
        self.code(0)
    }

    /// The code of that number.
    pub fn code(&self, number: u32) -> Rc<Code<RcStr>> {
        Rc::clone(&self.codes[number as usize])
    }

    pub fn number_of(&self, code: &Rc<Code<RcStr>>) -> u32 {
        self.numbers[&Rc::as_ptr(code)]
    }

    /// The constant of that index in the code of that number.
    pub fn constant(&self, code: u32, constant: u64) -> Option<&ConstValue<RcStr, ConstCodeId>> {
        let code = self.codes.get(code as usize)?;
        code.consts.get(ConstId::new(usize::try_from(constant).ok()?))
    }

    /// Where a Str or Bytes constant stands in the image.
    pub fn part(&self, origin: Origin) -> Part {
        match self.program.codes[origin.code as usize].constants[origin.constant as usize] {
            Constant::Str(part) | Constant::Bytes(part) => part,
            ref other => unreachable!("{other:?} is no Str or Bytes"),
        }
    }
}

/// The name of the global or builtin of that number.
pub fn name(number: u32) -> RcStr {
    Rc::new(Str::Name(number))
}

fn link_code(
    image: &[u8],
    number: u32,
    code: &image::Code,
    const_codes: IndexVec<ConstCodeId, Rc<Code<RcStr>>>,
) -> Code<RcStr> {
    let opcodes = code.opcodes.iter().map(|&(number, operand)| link_opcode(number, operand)).collect();
    let constants = (0..).zip(&code.constants);
    let captures = code.captures.iter().map(|&(kind, index)| (name(0), link_capture(kind, index.into())));
    Code {
        params: link_params(code.params, code.variadic),
        code: IndexVec::with_filler(opcodes, OpCode::MarkAddStackSize(0)),
        consts: constants
            .map(|(constant, value)| link_constant(image, Origin { code: number, constant }, value))
            .collect(),
        const_codes,
        local_names: IndexVec::from(vec![name(0); code.locals.into()]),
        global_names: code.globals.iter().map(|&number| name(number.into())).collect(),
        upvalue_names: captures.collect(),
        stack_size: code.stack_size.into(),
    }
}

/// All parameters have one name, so that effects are equal by their count and variadic mark.
fn link_params(params: u16, variadic: bool) -> CodeParams<RcStr> {
    CodeParams { params: vec![name(0); params.into()], variadic: variadic.then(|| name(0)) }
}

fn link_capture(kind: u16, index: usize) -> UpvalueCapture {
    match kind {
        0 => UpvalueCapture::Local(LocalNameId::new(index)),
        // The outermost code's captures are not tested, and never made.
        _ => UpvalueCapture::Upvalue(UpvalueNameId::new(index)),
    }
}

fn link_constant(image: &[u8], origin: Origin, constant: &Constant) -> ConstValue<RcStr, ConstCodeId> {
    let text = |part: Part| Rc::new(Str::Constant { origin, text: image[part.start..][..part.len].to_vec() });
    match *constant {
        Constant::Null => ConstValue::Null,
        Constant::Bool(value) => ConstValue::Bool(value),
        Constant::Int(value) => ConstValue::Int(value),
        Constant::Float(bits) => ConstValue::Float(Float(bits)),
        Constant::Str(part) => ConstValue::Str(text(part)),
        Constant::Bytes(_) => ConstValue::Bytes(origin),
        Constant::Function(index) => ConstValue::Function(ConstCodeId::new(index.into())),
        Constant::BuiltinEffect(number) => {
            ConstValue::Effect(EffectConst::Builtin(BUILTIN_EFFECTS[usize::from(number)]))
        }
        Constant::UserEffect { params, variadic, name } => {
            let effect = UserEffect { name: text(name), params: link_params(params, variadic) };
            ConstValue::Effect(EffectConst::User(Rc::new(effect)))
        }
    }
}

fn link_opcode(number: u16, operand: u32) -> OpCode<CodeId> {
    let index = operand as usize;
    match number {
        0 => OpCode::Pop,
        1 => OpCode::Copy(index),
        2 => OpCode::Swap(index),
        3 => OpCode::LoadLocal(LocalNameId::new(index)),
        4 => OpCode::LoadGlobal(GlobalNameId::new(index)),
        5 => OpCode::LoadUpvalue(UpvalueNameId::new(index)),
        6 => OpCode::LoadConst(ConstId::new(index)),
        7 => OpCode::StoreLocal(LocalNameId::new(index)),
        8 => OpCode::StoreGlobal(GlobalNameId::new(index)),
        10 => OpCode::BuildList(index),
        17..=29 => link_operator(number),
        30 => OpCode::TypeCheck(TYPES[index]),
        36 => OpCode::Call(index),
        37 => OpCode::Return,
        38 => OpCode::ReturnCall(index),
        40..=49 => link_jump(number, CodeId::new(index)),
        50 => OpCode::CheckEffect(index),
        51 => OpCode::MarkAddStackSize(index),
        _ => unreachable!("no accepted image has opcode {number}"),
    }
}

fn link_operator(number: u16) -> OpCode<CodeId> {
    match number {
        17 => OpCode::Neg,
        18 => OpCode::Not,
        19 => OpCode::Add,
        20 => OpCode::Sub,
        21 => OpCode::Mul,
        22 => OpCode::Div,
        23 => OpCode::Rem,
        24 => OpCode::Eq,
        25 => OpCode::Ne,
        26 => OpCode::Gt,
        27 => OpCode::Ge,
        28 => OpCode::Lt,
        _ => OpCode::Le,
    }
}

fn link_jump(number: u16, target: CodeId) -> OpCode<CodeId> {
    match number {
        40 => OpCode::Jump(target),
        41 => OpCode::JumpBackEdge(target),
        42 => OpCode::Break(target),
        43 => OpCode::Continue(target),
        44 => OpCode::JumpPopIfNull(target),
        45 => OpCode::PopJumpIfTrue(target),
        46 => OpCode::PopJumpIfFalse(target),
        47 => OpCode::JumpIfTrueOrPop(target),
        48 => OpCode::JumpIfFalseOrPop(target),
        _ => OpCode::RegisterHandler(target),
    }
}
