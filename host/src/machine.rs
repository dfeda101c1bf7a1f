//! The eleven calls, with types.

use std::{
    borrow::Cow,
    str::{self, Utf8Error},
};

use crate::{
    Answer, Cell, Fuel, Memory, Outcome, Refusal, Value, View,
    raw::{self, Got, Lent, Reply, Shown},
    value::list,
};

/// A script as bytes; a load tells whether it is one.
#[derive(Clone, Copy, Debug)]
pub struct Image<'i>(&'i [u8]);

impl<'i> Image<'i> {
    /// These bytes as an image.
    pub fn new(bytes: &'i [u8]) -> Image<'i> {
        Image(bytes)
    }

    /// Its bytes.
    pub fn bytes(self) -> &'i [u8] {
        self.0
    }
}

/// What the host answers a callback with. A list over 4,096 values, arguments and handlers together, is refused with 5.
#[derive(Clone, Copy, Debug)]
pub enum CallbackReturn<'a> {
    /// Calls a Function under handlers; the callback is called again with what it returns, or with an effect that one of the handlers takes.
    Call {
        /// The Function.
        function: Value,
        /// Its arguments.
        args: &'a [Value],
        /// Effects that the callback's frame handles from now on, instead of those before; up to 16 different ones.
        handlers: &'a [Value],
    },
    /// Performs an Effect; the callback is called again with what it is resumed with.
    Perform {
        /// The Effect.
        effect: Value,
        /// Its arguments.
        args: &'a [Value],
    },
    /// Gives way to a call of a Function.
    TailCall {
        /// The Function.
        function: Value,
        /// Its arguments.
        args: &'a [Value],
    },
    /// Gives way to a perform of an Effect.
    TailPerform {
        /// The Effect.
        effect: Value,
        /// Its arguments.
        args: &'a [Value],
    },
    /// Returns a value.
    ReturnValue(Value),
    /// Throws an Error with a value.
    Error(Value),
    /// Throws a Panic with a value.
    Panic(Value),
}

impl CallbackReturn<'_> {
    /// The kind's number, its subject, arguments and handlers.
    fn parts(&self) -> (u32, Value, &[Value], &[Value]) {
        match *self {
            CallbackReturn::Call { function, args, handlers } => (0, function, args, handlers),
            CallbackReturn::Perform { effect, args } => (1, effect, args, &[]),
            CallbackReturn::TailCall { function, args } => (2, function, args, &[]),
            CallbackReturn::TailPerform { effect, args } => (3, effect, args, &[]),
            CallbackReturn::ReturnValue(value) => (4, value, &[], &[]),
            CallbackReturn::Error(value) => (5, value, &[], &[]),
            CallbackReturn::Panic(value) => (6, value, &[], &[]),
        }
    }
}

/// The text of a Str: a part of the image, or of the page of messages.
#[derive(Clone, Copy, PartialEq, Eq, Debug)]
pub enum Text<'i, 'p> {
    /// Of the image, where it is UTF-8.
    Image(&'i [u8]),
    /// Of the page, which the executor does not test; empty if the page lacks the message.
    Page(&'p [u8]),
}

impl Text<'_, '_> {
    /// Its bytes.
    pub fn bytes(&self) -> &[u8] {
        match self {
            Text::Image(bytes) | Text::Page(bytes) => bytes,
        }
    }

    /// As a `str`.
    pub fn as_str(&self) -> Result<&str, Utf8Error> {
        str::from_utf8(self.bytes())
    }

    /// As text whatever the page holds.
    pub fn to_str_lossy(&self) -> Cow<'_, str> {
        String::from_utf8_lossy(self.bytes())
    }
}

/// An image with the memory of one job: what every call is lent.
///
/// The executor does not test that the image is the loaded one; a machine keeps the two together.
#[derive(Debug)]
pub struct Machine<'i, 'm> {
    image: Image<'i>,
    memory: Memory<'m>,
}

impl<'i, 'm> Machine<'i, 'm> {
    /// Lends image and memory from now on. Memory in which this image was loaded before goes on where it was; other memory needs a load.
    pub fn new(image: Image<'i>, memory: Memory<'m>) -> Machine<'i, 'm> {
        Machine { image, memory }
    }

    /// Gives the memory back.
    pub fn into_memory(self) -> Memory<'m> {
        self.memory
    }

    /// The memory.
    pub fn memory(&self) -> &Memory<'m> {
        &self.memory
    }

    /// The memory, to be changed.
    pub fn memory_mut(&mut self) -> &mut Memory<'m> {
        &mut self.memory
    }

    /// The image.
    pub fn image(&self) -> Image<'i> {
        self.image
    }

    /// What memory holds: result, frames, wait, globals, objects.
    pub fn view(&self) -> View<'_> {
        self.memory.view()
    }

    fn lent(&mut self) -> Lent<'_> {
        let (state, live, store) = self.memory.parts_mut();
        Lent { image: self.image.0, state, live, store }
    }

    fn shown(&self) -> Shown<'_> {
        let (state, live, store) = (self.memory.state(), self.memory.live(), self.memory.store());
        Shown { image: self.image.0, state, live, store }
    }

    /// Loads the image into memory of any content, and gives the outermost closure.
    pub fn load(&mut self) -> Result<Value, Refusal> {
        got(raw::load(self.lent()))
    }

    /// Starts a Function.
    pub fn start(&mut self, function: Value, args: &[Value]) -> Result<(), Refusal> {
        Refusal::unless_accepted(raw::start(self.lent(), function.halves(), &list(args)))
    }

    /// Runs for so many ticks and charges fuel.
    pub fn run(&mut self, fuel: &mut Fuel, ticks: u32) -> Outcome {
        let ran = raw::run(self.lent(), fuel.bytes_mut(), ticks);
        Outcome { answer: Answer::of(ran.code), ticks: ran.ticks }
    }

    /// Answers the callback that waits, with the word that its frame keeps, and charges fuel: [`Answer::GoOn`] or [`Answer::OutOfFuel`].
    pub fn answer(&mut self, fuel: &mut Fuel, word: u64, answer: CallbackReturn<'_>) -> Result<Answer, Refusal> {
        let (kind, subject, args, handlers) = answer.parts();
        let (args, handlers) = (list(args), list(handlers));
        let reply = Reply { kind, word, subject: subject.halves(), args: &args, handlers: &handlers };
        Answer::of(raw::answer(self.lent(), fuel.bytes_mut(), reply))
    }

    /// Drops frames, result, wait and slice; store, globals and builtins stay.
    pub fn clear(&mut self) -> Result<(), Refusal> {
        Refusal::unless_accepted(raw::clear(self.lent()))
    }

    /// The text of a Str: a part of the image, or, for a message, a line of the page, which has an LF after each.
    pub fn text<'p>(&self, page: &'p [u8], value: Value) -> Result<Text<'i, 'p>, Refusal> {
        let found = raw::text(self.shown(), page, value.halves());
        Refusal::unless_accepted(found.code)?;
        Ok(if found.from == 0 { Text::Image(part(self.image.0, found)) } else { Text::Page(part(page, found)) })
    }

    /// The bytes of a Bytes, a part of the image.
    pub fn bytes(&self, value: Value) -> Result<&'i [u8], Refusal> {
        let found = raw::bytes(self.shown(), value.halves());
        Refusal::unless_accepted(found.code)?;
        Ok(part(self.image.0, found))
    }

    /// Sets a global by its name number, 0 to 255.
    pub fn set_global(&mut self, number: u32, value: Value) -> Result<(), Refusal> {
        Refusal::unless_accepted(raw::set_global(self.lent(), number, value.halves()))
    }

    /// A global, null if it was never set.
    pub fn global(&self, number: u32) -> Result<Value, Refusal> {
        got(raw::get_global(self.shown(), number))
    }

    /// Sets a builtin by its name number, 0 to 255. A script reads it where its global of that number is null.
    pub fn set_builtin(&mut self, number: u32, value: Value) -> Result<(), Refusal> {
        Refusal::unless_accepted(raw::set_builtin(self.lent(), number, value.halves()))
    }

    /// A builtin, null if it was never set.
    pub fn builtin(&self, number: u32) -> Result<Value, Refusal> {
        got(raw::get_builtin(self.shown(), number))
    }
}

fn got(got: Got) -> Result<Value, Refusal> {
    Refusal::unless_accepted(got.code)?;
    Value::try_from(Cell::of_halves(got.low, got.high)).map_err(|_| Refusal::NotInForm)
}

/// The part of a loan; that it lies in it is the executor's contract.
fn part(loan: &[u8], found: raw::Part) -> &[u8] {
    &loan[found.start as usize..][..found.len as usize]
}
