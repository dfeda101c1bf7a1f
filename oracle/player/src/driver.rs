//! The Rust's executor, played by the rules that document 01 adds: refusals, ticks and pauses, costs, the host's wait.

use std::rc::Rc;

use lucia::{
    Context,
    errors::Error,
    executor::{Executor, ExecutorResult},
    frame::Frame,
    fuel::Fuel,
    objects::{Callback, CallbackResult, CallbackReturn, Closure, Origin, Str, Table, Value},
};

use crate::{
    call::{Answer, Call, LIVE_CELLS, Lent, Loans, Machine, STATE_LENGTH, STORE_CELLS, code, kind},
    cell::Cell,
    hold::Ready,
    image,
    link::{Linked, name},
    snapshot::Snapshot,
    values::{Store, frames_cost, handler_count, object_cost, stack_of},
};

/// Refusals from the input and from the state; 1 to 4 are the image's.
pub mod refusal {
    pub const HOST_VALUE: u32 = 5;
    pub const LENGTH: u32 = 6;
    pub const FORM: u32 = 7;
    pub const NOTHING_LOADED: u32 = 10;
    pub const TURN: u32 = 11;
    pub const STACK: u32 = 12;
    pub const FRAMES: u32 = 13;
    pub const LIVE: u32 = 14;
    pub const STORE: u32 = 15;
    pub const HANDLERS: u32 = 16;
}

/// The most frames, the most handlers of a frame, the most values in one call.
pub const MAX_FRAMES: usize = 256;
pub const MAX_HANDLERS: usize = 16;
const MAX_VALUES: usize = 4_096;

/// What a slice begins with (`run_vm` gets 64).
pub const SLICE: u32 = 64;
/// What a callback and what every step charges; these are private in the Rust, whose `step` is asked for its own charge.
pub const FUEL_PER_CALLBACK: i32 = 8;
pub const FUEL_PER_STEP: i32 = 4;

const FUEL_BYTES: usize = 5;
/// Globals and builtins each.
const NAMES: u32 = 256;

/// Cells lent.
#[derive(Clone, Copy)]
pub(crate) struct Room {
    pub live: usize,
    pub store: usize,
}

impl Room {
    fn of(loans: Loans) -> Room {
        Room { live: (loans.live / 16).min(LIVE_CELLS), store: (loans.store / 16).min(STORE_CELLS) }
    }
}

/// The oracle's machine.
#[derive(Default)]
pub struct Driver {
    loaded: Option<Loaded>,
}

/// What a load makes; the store comes last, since it must be dropped last.
pub(crate) struct Loaded {
    pub linked: Rc<Linked>,
    pub executor: Executor,
    pub context: Context,
    pub wait: bool,
    /// What is left of the unfinished slice, `SLICE` if none is begun.
    pub left: u32,
    pub store: Store,
}

impl Machine for Driver {
    fn call(&mut self, lent: Lent<'_>, call: &Call) -> Answer {
        self.accept(lent, call).unwrap_or_else(Answer::of)
    }

    fn snapshot(&self) -> Snapshot {
        self.loaded.as_ref().map_or_else(Snapshot::nothing_loaded, Loaded::snapshot)
    }
}

impl Driver {
    pub fn new() -> Driver {
        Driver::default()
    }

    /// The machine that holds a snapshot in form (`hold.rs`).
    pub fn holding(ready: &Ready, snapshot: &Snapshot) -> Option<Driver> {
        Loaded::holding(ready, snapshot).map(|loaded| Driver { loaded: Some(loaded) })
    }

    fn accept(&mut self, lent: Lent<'_>, call: &Call) -> Result<Answer, u32> {
        let charges = matches!(call, Call::Run { .. } | Call::Answer { .. });
        if lent.loans.state != STATE_LENGTH || charges && lent.fuel.len() != FUEL_BYTES {
            return Err(refusal::LENGTH);
        }
        let linked = self.link(lent.image)?;
        let room = Room::of(lent.loans);
        if let Call::Load = call {
            return self.load(linked, room);
        }
        let loaded = self.loaded.as_mut().ok_or(refusal::NOTHING_LOADED)?;
        assert!(Rc::ptr_eq(&linked, &loaded.linked), "an accepted image other than the loaded one is not modelled");
        loaded.test_form(room)?;
        loaded.call(lent, room, call)
    }

    /// The image's codes, which for the loaded image are there already, or its refusal.
    fn link(&self, image: &[u8]) -> Result<Rc<Linked>, u32> {
        match &self.loaded {
            Some(loaded) if loaded.linked.image == image => Ok(Rc::clone(&loaded.linked)),
            _ => Ok(Rc::new(Linked::new(image, image::parse(image)?))),
        }
    }

    fn load(&mut self, linked: Rc<Linked>, room: Room) -> Result<Answer, u32> {
        let mut loaded = Loaded::new(linked);
        let closure = loaded.outermost();
        loaded.settle(room, 0, vec![closure.clone()])?;
        let value = loaded.store.cell(&closure);
        self.loaded = Some(loaded);
        Ok(Answer { value, ..Answer::default() })
    }
}

impl Loaded {
    pub fn new(linked: Rc<Linked>) -> Loaded {
        Loaded {
            linked,
            executor: Executor::new(),
            context: Context::empty(),
            wait: false,
            left: SLICE,
            store: Store::default(),
        }
    }

    fn outermost(&self) -> Value {
        Closure::new(self.linked.outermost()).into()
    }

    fn call(&mut self, lent: Lent<'_>, room: Room, call: &Call) -> Result<Answer, u32> {
        match *call {
            Call::Load => unreachable!("a load needs nothing loaded"),
            Call::Start { function, ref args } => self.start(room, function, args),
            Call::Run { ticks } => self.lent_run(room, lent.fuel, ticks),
            Call::Answer { kind, word, subject, ref args, ref handlers } => {
                let answer = self.host_answer(kind, subject, args, handlers);
                self.answer(room, lent.fuel, word, answer)
            }
            Call::Clear => Ok(self.clear()),
            Call::Text { value } => self.text(lent.page, value),
            Call::Bytes { value } => self.bytes(value),
            Call::SetGlobal { number, value } => self.set(number, value, |context| &mut context.globals),
            Call::SetBuiltin { number, value } => self.set(number, value, |context| &mut context.builtins),
            Call::GetGlobal { number } => self.get(number, &self.context.globals),
            Call::GetBuiltin { number } => self.get(number, &self.context.builtins),
        }
    }

    /// Of refusal 7 only this is modelled: the memory lent is smaller than what is used.
    fn test_form(&self, room: Room) -> Result<(), u32> {
        if self.live() > room.live || self.store.used() > room.store { Err(refusal::FORM) } else { Ok(()) }
    }

    /// Live cells used.
    pub fn live(&self) -> usize {
        let args = match &self.executor.result {
            Some(ExecutorResult::Effect { args, .. }) => args.len(),
            _ => 0,
        };
        frames_cost(&self.executor.frames) + args
    }

    /// Judges what a step has left, with its live cells and the objects it made; if accepted, the store takes these.
    pub fn settle(&mut self, room: Room, live: usize, objects: Vec<Value>) -> Result<(), u32> {
        let handlers = self.executor.frames.last().map_or(0, handler_count);
        let stored = self.store.used() + objects.iter().map(object_cost).sum::<usize>();
        if handlers > MAX_HANDLERS {
            Err(refusal::HANDLERS)
        } else if self.executor.frames.len() > MAX_FRAMES {
            Err(refusal::FRAMES)
        } else if live > room.live {
            Err(refusal::LIVE)
        } else if stored > room.store {
            Err(refusal::STORE)
        } else {
            objects.into_iter().for_each(|object| self.store.add(object));
            Ok(())
        }
    }

    /// `settle` after a step that may have changed any frame: what it made lies on the top frame's stack, in order.
    pub fn settle_frames(&mut self, room: Room) -> Result<(), u32> {
        let stack = self.executor.frames.last().map_or(&[][..], stack_of);
        self.settle(room, self.live(), self.store.new_objects(stack))
    }

    fn start(&mut self, room: Room, function: Cell, args: &[u8]) -> Result<Answer, u32> {
        if !self.executor.frames.is_empty() || self.executor.result.is_some() {
            return Err(refusal::TURN);
        }
        let Some(Value::Function(function)) = self.store.value(&self.linked, function) else {
            return Err(refusal::HOST_VALUE);
        };
        let args = self.values(args).filter(|args| args.len() <= MAX_VALUES).ok_or(refusal::HOST_VALUE)?;
        self.executor.start(function, args);
        self.settle_frames(room).inspect_err(|_| self.executor = Executor::new())?;
        Ok(Answer::default())
    }

    fn values(&self, bytes: &[u8]) -> Option<Vec<Value>> {
        self.store.values(&self.linked, bytes)
    }

    fn lent_run(&mut self, room: Room, lent: &mut [u8], ticks: u32) -> Result<Answer, u32> {
        if self.wait {
            return Err(refusal::TURN);
        }
        let mut fuel = lent_fuel(lent);
        let (code, ticks) = self.run(room, &mut fuel, ticks);
        give_back(&fuel, lent);
        Ok(Answer { code, ticks, ..Answer::default() })
    }

    /// What the host answers, or nothing if it is malformed.
    fn host_answer(&self, kind: u32, subject: Cell, args: &[u8], handlers: &[u8]) -> Option<CallbackResult> {
        let surplus = kind != kind::CALL && !handlers.is_empty() || kind >= kind::RETURN_VALUE && !args.is_empty();
        let (args, handlers) = (self.values(args)?, self.values(handlers)?);
        if surplus || args.len() + handlers.len() > MAX_VALUES {
            return None;
        }
        Some(match (kind, self.store.value(&self.linked, subject)?) {
            (kind::CALL, Value::Function(function)) => {
                let effects = handlers.into_iter().map(|handler| match handler {
                    Value::Effect(effect) => Some(effect),
                    _ => None,
                });
                Ok(CallbackReturn::Call { function, args, effect_handlers: effects.collect::<Option<_>>()? })
            }
            (kind::PERFORM, Value::Effect(effect)) => Ok(CallbackReturn::Perform { effect, args }),
            (kind::TAIL_CALL, Value::Function(function)) => Ok(CallbackReturn::TailCall { function, args }),
            (kind::TAIL_PERFORM, Value::Effect(effect)) => Ok(CallbackReturn::TailPerform { effect, args }),
            (kind::RETURN_VALUE, value) => Ok(CallbackReturn::ReturnValue { value }),
            (kind::ERROR, value) => Err(Error::LuciaError(value)),
            (kind::PANIC, value) => Err(Error::LuciaPanic(value)),
            _ => return None,
        })
    }

    /// The Rust's own step takes the answer; its 8 were charged when the wait began.
    fn answer(
        &mut self,
        room: Room,
        lent: &mut [u8],
        word: u64,
        answer: Option<CallbackResult>,
    ) -> Result<Answer, u32> {
        if !self.wait {
            return Err(refusal::TURN);
        }
        let answer = answer.ok_or(refusal::HOST_VALUE)?;
        // The frame that gets the handlers stays, under others or captured.
        if let Ok(CallbackReturn::Call { effect_handlers, .. }) = &answer
            && effect_handlers.len() > MAX_HANDLERS
        {
            return Err(refusal::HANDLERS);
        }
        let copy = self.executor.clone();
        self.put_answer(word, answer);
        let charge = one_step(&mut self.executor, &mut self.context);
        assert_eq!(charge, FUEL_PER_CALLBACK + FUEL_PER_STEP, "the Rust's charge for a callback");
        self.settle_frames(room).inspect_err(|_| self.executor = copy)?;
        self.wait = false;
        let mut fuel = lent_fuel(lent);
        fuel.consume(FUEL_PER_STEP);
        give_back(&fuel, lent);
        Ok(Answer::of(if fuel.should_continue() { code::GO_ON } else { code::OUT_OF_FUEL }))
    }

    fn put_answer(&mut self, word: u64, answer: CallbackResult) {
        match self.executor.frames.last_mut() {
            Some(Frame::Callback { callback: Callback::Host(host), .. }) => {
                host.word = word;
                host.answer = Some(answer);
            }
            other => unreachable!("{other:?} awaits no answer"),
        }
    }

    fn clear(&mut self) -> Answer {
        self.executor = Executor::new();
        self.wait = false;
        self.left = SLICE;
        Answer::default()
    }

    fn text(&self, page: &[u8], value: Cell) -> Result<Answer, u32> {
        match self.store.value(&self.linked, value) {
            Some(Value::Str(text)) => Ok(match *text {
                Str::Constant { origin, .. } => self.part(origin),
                Str::Message(number) => message(page, number),
                Str::Name(_) => unreachable!("a name is no value"),
            }),
            _ => Err(refusal::HOST_VALUE),
        }
    }

    fn bytes(&self, value: Cell) -> Result<Answer, u32> {
        match self.store.value(&self.linked, value) {
            Some(Value::Bytes(bytes)) => Ok(self.part(bytes.0)),
            _ => Err(refusal::HOST_VALUE),
        }
    }

    fn part(&self, origin: Origin) -> Answer {
        let part = self.linked.part(origin);
        Answer { from: 0, start: part.start as u64, len: part.len as u64, ..Answer::default() }
    }

    fn set(&mut self, number: u32, value: Cell, table: fn(&mut Context) -> &mut Table) -> Result<Answer, u32> {
        let value = self.store.value(&self.linked, value).filter(|_| number < NAMES).ok_or(refusal::HOST_VALUE)?;
        table(&mut self.context).set(name(number), value);
        Ok(Answer::default())
    }

    fn get(&self, number: u32, table: &Table) -> Result<Answer, u32> {
        if number >= NAMES {
            return Err(refusal::HOST_VALUE);
        }
        Ok(Answer { value: self.store.cell(&table.get(name(number))), ..Answer::default() })
    }

    fn snapshot(&self) -> Snapshot {
        Snapshot {
            loaded: true,
            frames: self.executor.frames.iter().map(|frame| self.store.frame(frame)).collect(),
            result: self.store.outcome(&self.executor.result),
            wait: self.wait,
            left: self.left,
            store: self.store.objects(&self.linked),
            globals: self.store.by_number(&self.context.globals),
            builtins: self.store.by_number(&self.context.builtins),
        }
    }
}

/// One slice or one callback by the Rust's `step`, and what it charges: a set mark ends `step` after the first.
pub(crate) fn one_step(executor: &mut Executor, context: &mut Context) -> i32 {
    let mut fuel = Fuel::empty();
    fuel.interrupt();
    executor.step(context, &mut fuel);
    -fuel.remaining()
}

/// Fuel as it is lent: the number, then the mark.
fn lent_fuel(lent: &[u8]) -> Fuel {
    let mut fuel = Fuel::with(i32::from_le_bytes([lent[0], lent[1], lent[2], lent[3]]));
    if lent[4] != 0 {
        fuel.interrupt();
    }
    fuel
}

/// The mark's byte is left.
fn give_back(fuel: &Fuel, lent: &mut [u8]) {
    lent[..4].copy_from_slice(&fuel.remaining().to_le_bytes());
}

/// The message of that number on the page: the text up to its LF; a missing one is empty, at the end.
pub(crate) fn message(page: &[u8], number: u32) -> Answer {
    let mut lines = page.split_inclusive(|&byte| byte == b'\n').filter(|line| line.ends_with(b"\n"));
    let before: Vec<&[u8]> = lines.by_ref().take(number as usize - 1).collect();
    let (start, len) = match lines.next() {
        Some(line) => (before.iter().map(|line| line.len()).sum(), line.len() - 1),
        None => (page.len(), 0),
    };
    Answer { from: 1, start: start as u64, len: len as u64, ..Answer::default() }
}
