//! Values of the Rust as cells and back, its frames and results in values of cells, and the store.

use std::{collections::HashMap, rc::Rc};

use lucia::{
    compiler::{
        code::{ConstValue, EffectConst},
        index::{CodeId, ConstCodeId},
        opcode::OpCode,
    },
    errors::Error,
    executor::ExecutorResult,
    frame::Frame,
    objects::{Callback, Effect, Function, HostCallback, Origin, RcClosure, RcStr, Str, Table, Value},
    utils::Float,
};

use crate::{
    cell::{Cell, tag},
    link::{BUILTIN_EFFECTS, Linked},
    snapshot::{self, Fault, FrameKind, Handler, Object, Outcome},
};

/// Cells that a frame costs.
pub fn frame_cost(frame: &Frame) -> usize {
    match frame {
        Frame::Lucia { locals, stack, effect_handlers, .. } => {
            6 + locals.len() + stack.len() + 2 * effect_handlers.len()
        }
        Frame::Callback { stack, effect_handlers, .. } => 6 + stack.len() + 2 * effect_handlers.len(),
    }
}

pub fn frames_cost(frames: &[Frame]) -> usize {
    frames.iter().map(frame_cost).sum()
}

/// The stack of a frame of either kind.
pub fn stack_of(frame: &Frame) -> &[Value] {
    match frame {
        Frame::Lucia { stack, .. } | Frame::Callback { stack, .. } => stack,
    }
}

/// The number of a frame's handlers.
pub fn handler_count(frame: &Frame) -> usize {
    match frame {
        Frame::Lucia { effect_handlers, .. } => effect_handlers.len(),
        Frame::Callback { effect_handlers, .. } => effect_handlers.len(),
    }
}

/// The objects made since the load, in their order; each is kept alive, so that its address says which it is.
#[derive(Default)]
pub struct Store {
    /// With their handles: the first cell of each.
    objects: Vec<(u32, Value)>,
    handles: HashMap<*const (), u32>,
    used: usize,
}

impl Store {
    /// Cells used.
    pub fn used(&self) -> usize {
        self.used
    }

    pub fn add(&mut self, object: Value) {
        let handle = self.used as u32;
        self.used += object_cost(&object);
        self.handles.insert(address(&object).expect("only objects are stored"), handle);
        self.objects.push((handle, object));
    }

    /// The objects among the values that are not in the store yet.
    pub fn new_objects(&self, values: &[Value]) -> Vec<Value> {
        let is_new = |value: &&Value| address(value).is_some_and(|address| !self.handles.contains_key(&address));
        values.iter().filter(is_new).cloned().collect()
    }

    fn object(&self, handle: u32) -> Option<Value> {
        let place = self.objects.binary_search_by_key(&handle, |&(handle, _)| handle).ok()?;
        Some(self.objects[place].1.clone())
    }

    fn handle(&self, address: *const ()) -> u32 {
        *self.handles.get(&address).expect("every object is in the store")
    }

    fn closure_handle(&self, closure: &RcClosure) -> u32 {
        self.handle(Rc::as_ptr(closure).cast())
    }

    /// The cell of a value.
    pub fn cell(&self, value: &Value) -> Cell {
        match value {
            Value::Null => Cell::NULL,
            Value::Bool(value) => Cell::new(tag::BOOL, (*value).into(), 0),
            Value::Int(value) => Cell::int(*value),
            Value::Float(Float(bits)) => Cell::new(tag::FLOAT, 0, *bits),
            Value::Str(value) => str_cell(value),
            Value::Bytes(value) => constant_cell(tag::BYTES, value.0),
            Value::Table(list) => Cell::new(tag::LIST, self.handle(Rc::as_ptr(list).cast()), 0),
            Value::Function(function) => self.function_cell(function),
            Value::Effect(effect) => effect_cell(effect),
        }
    }

    fn function_cell(&self, function: &Function) -> Cell {
        match function {
            Function::Closure(closure) => Cell::new(tag::CLOSURE, self.closure_handle(closure), 0),
            Function::Continuation(continuation) => {
                Cell::new(tag::CONTINUATION, self.handle(Rc::as_ptr(continuation).cast()), 0)
            }
            Function::Callback(callback) => match &**callback {
                Callback::Host(host) => Cell::new(tag::CALLBACK, host.number, host.word),
                Callback::Effect(_) => unreachable!("an effect becomes a function only as it is called"),
            },
        }
    }

    fn cells(&self, values: &[Value]) -> Vec<Cell> {
        values.iter().map(|value| self.cell(value)).collect()
    }

    /// The value of a cell, unless the cell is malformed or names nothing that exists.
    pub fn value(&self, linked: &Linked, cell: Cell) -> Option<Value> {
        let value = match cell.tag {
            tag::NULL => Value::Null,
            tag::BOOL => Value::Bool(cell.number == 1),
            tag::INT => Value::Int(cell.payload as i64),
            tag::FLOAT => Value::Float(Float(cell.payload)),
            tag::STR | tag::BYTES | tag::USER_EFFECT => constant_value(linked.constant(cell.number, cell.payload)?)?,
            tag::LIST | tag::CLOSURE | tag::CONTINUATION => self.object(cell.number)?,
            tag::BUILTIN_EFFECT => Effect::Builtin(*BUILTIN_EFFECTS.get(cell.number as usize)?).into(),
            tag::MESSAGE if (1..=6).contains(&cell.number) => Value::Str(Rc::new(Str::Message(cell.number))),
            tag::CALLBACK => callback_value(cell),
            _ => return None,
        };
        // Each value has one cell, so every other bit pattern is malformed.
        (self.cell(&value) == cell).then_some(value)
    }

    /// The values of a list of cells, if all are well-formed.
    pub fn values(&self, linked: &Linked, bytes: &[u8]) -> Option<Vec<Value>> {
        let cells = bytes.chunks_exact(16);
        let whole = cells.remainder().is_empty();
        cells.map(|bytes| self.value(linked, Cell::from_bytes(bytes))).collect::<Option<_>>().filter(|_| whole)
    }

    pub fn frame(&self, frame: &Frame) -> snapshot::Frame {
        match frame {
            Frame::Lucia { pc, closure, locals, stack, effect_handlers } => snapshot::Frame {
                kind: FrameKind::Lucia { closure: self.closure_handle(closure), place: pc.index() as u32 },
                locals: locals.iter().map(|value| self.cell(value)).collect(),
                handlers: effect_handlers
                    .iter()
                    .map(|(effect, info)| Handler {
                        effect: effect_cell(effect),
                        target: info.jump_target.index() as u32,
                        stack_size: info.stack_size as u64,
                    })
                    .collect(),
                stack: self.cells(stack),
            },
            Frame::Callback { callback, stack, effect_handlers } => snapshot::Frame {
                kind: callback_kind(callback),
                locals: Vec::new(),
                handlers: effect_handlers
                    .iter()
                    .map(|effect| Handler { effect: effect_cell(effect), target: 0, stack_size: 0 })
                    .collect(),
                stack: self.cells(stack),
            },
        }
    }

    pub fn outcome(&self, result: &Option<ExecutorResult>) -> Outcome {
        match result {
            None => Outcome::None,
            Some(ExecutorResult::Value { value }) => Outcome::Value(self.cell(value)),
            Some(ExecutorResult::Error { error }) => Outcome::Error(self.fault(error)),
            Some(ExecutorResult::Effect { effect, args }) => {
                Outcome::Effect { effect: effect_cell(effect), args: self.cells(args) }
            }
        }
    }

    fn fault(&self, error: &Error) -> Fault {
        match *error {
            Error::CallArguments { required, given } => Fault::CallArguments {
                start: required.start as u64,
                end: required.end.map(|end| end as u64),
                given: given as u64,
            },
            Error::UnOperator { operator, operand } => {
                let (opcode, number) = operator_number(operator);
                Fault::UnOperator { opcode, operand: number, of: operand as u32 }
            }
            Error::BinOperator { operator, operand: (first, second) } => {
                let (opcode, number) = operator_number(operator);
                Fault::BinOperator { opcode, operand: number, of: [first as u32, second as u32] }
            }
            Error::MetaUnOperator { operator, operand } => {
                Fault::MetaUnOperator { name: operator as u32, of: operand as u32 }
            }
            Error::MetaBinOperator { operator, operand: (lhs, rhs) } => {
                Fault::MetaBinOperator { name: operator as u32, of: [lhs as u32, rhs as u32] }
            }
            Error::ZeroDivisor => Fault::ZeroDivisor,
            Error::LuciaError(ref value) => Fault::LuciaError(self.cell(value)),
            Error::LuciaPanic(ref value) => Fault::LuciaPanic(self.cell(value)),
        }
    }

    /// All objects in values of cells.
    pub fn objects(&self, linked: &Linked) -> Vec<Object> {
        self.objects.iter().map(|(_, object)| self.describe(linked, object)).collect()
    }

    fn describe(&self, linked: &Linked, object: &Value) -> Object {
        match object {
            Value::Table(list) => Object::List(self.cells(list.items())),
            Value::Function(Function::Closure(closure)) => Object::Closure {
                code: linked.number_of(&closure.code),
                upvalues: closure.upvalues.iter().map(|value| self.cell(value)).collect(),
            },
            Value::Function(Function::Continuation(continuation)) => {
                Object::Continuation(continuation.frames.iter().map(|frame| self.frame(frame)).collect())
            }
            other => unreachable!("{other:?} is no object"),
        }
    }

    /// 256 globals or builtins by name number.
    pub fn by_number(&self, table: &Table) -> Vec<Cell> {
        let mut cells = vec![Cell::NULL; 256];
        for (key, value) in table.iter() {
            match key {
                Value::Str(name) => cells[name_number(&name)] = self.cell(&value),
                other => unreachable!("{other:?} is no name"),
            }
        }
        cells
    }
}

/// Newest first, so that no object is freed while a younger one holds it: a long chain would need a deep recursion.
impl Drop for Store {
    fn drop(&mut self) {
        while self.objects.pop().is_some() {}
    }
}

/// The address of an object; other values have none.
pub fn address(value: &Value) -> Option<*const ()> {
    match value {
        Value::Table(list) => Some(Rc::as_ptr(list).cast()),
        Value::Function(Function::Closure(closure)) => Some(Rc::as_ptr(closure).cast()),
        Value::Function(Function::Continuation(continuation)) => Some(Rc::as_ptr(continuation).cast()),
        _ => None,
    }
}

/// Cells that an object costs.
pub fn object_cost(object: &Value) -> usize {
    1 + match object {
        Value::Table(list) => list.items().len(),
        Value::Function(Function::Closure(closure)) => closure.upvalues.len(),
        Value::Function(Function::Continuation(continuation)) => frames_cost(&continuation.frames),
        other => unreachable!("{other:?} is no object"),
    }
}

fn constant_cell(tag: u32, origin: Origin) -> Cell {
    Cell::new(tag, origin.code, origin.constant.into())
}

fn str_cell(value: &Str) -> Cell {
    match value {
        Str::Constant { origin, .. } => constant_cell(tag::STR, *origin),
        Str::Message(number) => Cell::new(tag::MESSAGE, *number, 0),
        Str::Name(_) => unreachable!("a name is no value of a script"),
    }
}

fn effect_cell(effect: &Effect) -> Cell {
    match effect {
        Effect::Builtin(builtin) => Cell::new(tag::BUILTIN_EFFECT, *builtin as u32, 0),
        Effect::User(user) => match &*user.name {
            Str::Constant { origin, .. } => constant_cell(tag::USER_EFFECT, *origin),
            other => unreachable!("{other:?} is no effect's name"),
        },
    }
}

fn constant_value(constant: &ConstValue<RcStr, ConstCodeId>) -> Option<Value> {
    match constant {
        ConstValue::Str(text) => Some(Value::Str(Rc::clone(text))),
        ConstValue::Bytes(origin) => Some(Value::Bytes(Rc::new((*origin).into()))),
        ConstValue::Effect(effect @ EffectConst::User(_)) => Some(Effect::new(effect.clone()).into()),
        _ => None,
    }
}

fn callback_value(cell: Cell) -> Value {
    let host = HostCallback::new(cell.number, cell.payload);
    Value::Function(Rc::new(Callback::Host(host)).into())
}

fn callback_kind(callback: &Callback) -> FrameKind {
    match callback {
        Callback::Effect(effect) => FrameKind::Effect { effect: effect_cell(effect) },
        Callback::Host(host) => FrameKind::Host { number: host.number, word: host.word },
    }
}

fn name_number(name: &Str) -> usize {
    match name {
        Str::Name(number) => *number as usize,
        other => unreachable!("{other:?} is no name"),
    }
}

/// Number and operand of an opcode that throws an operator's error.
fn operator_number(operator: OpCode<CodeId>) -> (u32, u32) {
    let target = |target: CodeId| target.index() as u32;
    match operator {
        OpCode::Not => (18, 0),
        OpCode::PopJumpIfTrue(i) => (45, target(i)),
        OpCode::PopJumpIfFalse(i) => (46, target(i)),
        OpCode::JumpIfTrueOrPop(i) => (47, target(i)),
        OpCode::JumpIfFalseOrPop(i) => (48, target(i)),
        OpCode::RegisterHandler(i) => (49, target(i)),
        OpCode::CheckEffect(i) => (50, i as u32),
        other => unreachable!("{other:?} throws no operator's error"),
    }
}
