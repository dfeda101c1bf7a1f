//! Each of the eleven calls through the types: what it gives, what it leaves, and what it refuses.

mod images;

use images::{Code, builtin, bytes, effect, function, identity, int, null, null_return, op, text};
use lucia::{
    Answer, BuiltinEffect, CallbackReturn, Callee, Constant, Fuel, Handle, Image, LIVE_CELLS, Machine, Memory, Message,
    Object, Outcome, Refusal, RunResult, STORE_CELLS, Text, Type, Value,
};

const OUTERMOST: Value = Value::Closure(Handle(0));
const YIELD: Value = Value::BuiltinEffect(BuiltinEffect::Yield);

fn machine(image: &[u8]) -> Machine<'_, 'static> {
    Machine::new(Image::new(image), Memory::new(LIVE_CELLS, STORE_CELLS))
}

/// A machine with its image loaded.
fn loaded(image: &[u8]) -> Machine<'_, 'static> {
    let mut machine = machine(image);
    assert_eq!(machine.load(), Ok(OUTERMOST));
    machine
}

/// A machine that runs its outermost closure.
fn started<'i>(image: &'i [u8], args: &[Value]) -> Machine<'i, 'static> {
    let mut machine = loaded(image);
    assert_eq!(machine.start(OUTERMOST, args), Ok(()));
    machine
}

/// A machine that waits for callback 7 with word 1, called with one argument, by the host itself.
fn waiting(image: &[u8]) -> Machine<'_, 'static> {
    let mut machine = loaded(image);
    assert_eq!(machine.start(Value::Callback { number: 7, word: 1 }, &[Value::Int(5)]), Ok(()));
    assert_eq!(run(&mut machine), Outcome { answer: Ok(Answer::Host), ticks: 0 });
    machine
}

fn run(machine: &mut Machine) -> Outcome {
    machine.run(&mut Fuel::new(100_000), 10_000)
}

/// The memory as bytes.
fn memory(machine: &Machine) -> [Vec<u8>; 3] {
    [machine.memory().state(), machine.memory().live(), machine.memory().store()].map(<[u8]>::to_vec)
}

/// Calls, and sees that it is refused and leaves every byte.
fn refuses<T: PartialEq + std::fmt::Debug>(
    machine: &mut Machine,
    number: u32,
    call: impl FnOnce(&mut Machine) -> Result<T, Refusal>,
) {
    let before = memory(machine);
    assert_eq!(call(machine), Err(Refusal::of(number)));
    assert!(memory(machine) == before, "a call refused with {number} changed memory");
}

/// Sees that every call but a load is refused with this number and leaves every byte.
fn all_but_a_load_refuse(machine: &mut Machine, number: u32) {
    refuses(machine, number, |machine| machine.start(OUTERMOST, &[]));
    refuses(machine, number, |machine| run(machine).answer);
    refuses(machine, number, |machine| machine.answer(&mut Fuel::new(1), 0, CallbackReturn::ReturnValue(Value::Null)));
    refuses(machine, number, |machine| machine.clear());
    refuses(machine, number, |machine| machine.set_global(0, Value::Null));
    refuses(machine, number, |machine| machine.set_builtin(0, Value::Null));
    refuses(machine, number, |machine| machine.global(0));
    refuses(machine, number, |machine| machine.builtin(0));
    refuses(machine, number, |machine| machine.text(&[], Value::Null).map(drop));
    refuses(machine, number, |machine| machine.bytes(Value::Null).map(drop));
}

fn result_text(machine: &Machine) -> String {
    machine.view().result().unwrap().map_or("none".into(), |result| result.to_string())
}

fn args(machine: &Machine) -> (u64, Vec<Value>) {
    let waiting = machine.view().waiting().unwrap().expect("a wait");
    assert_eq!(waiting.number, 7);
    (waiting.word, waiting.args.to_vec())
}

#[test]
fn a_load_gives_the_outermost_closure_and_empties_memory() {
    let image = null_return();
    let mut machine = machine(&image);
    machine.memory_mut().parts_mut().0.fill(255);
    assert!(!machine.view().is_loaded());
    assert_eq!(machine.load(), Ok(OUTERMOST));
    let view = machine.view();
    assert!(view.is_loaded());
    assert_eq!(view.frames().unwrap().len(), 0);
    assert_eq!((view.store_used(), view.slice_left()), (Ok(1), Ok(64)));
    assert!(view.result().unwrap().is_none() && view.waiting().unwrap().is_none());
    assert!(view.globals().unwrap().iter().chain(view.builtins().unwrap().iter()).all(|value| value == Value::Null));
    assert!(matches!(view.object(Handle(0)), Ok(Object::Closure { code: 0, upvalues }) if upvalues.is_empty()));
}

#[test]
fn images_are_refused_with_1_to_4_by_every_call() {
    let good = null_return();
    let no_opcodes = Code { constants: &[null()], ..Code::default() }.image();
    let deep = (0..8).fold(null_return(), |inner, _| {
        let outer = null_return();
        let body = [&outer[6..], &inner].concat();
        images::record(1, &body)
    });
    let cases = [
        (1, vec![]),
        (1, vec![0; 5]),
        (1, vec![0; 65_537]),
        (2, vec![0; 6]),
        (2, good[..good.len() - 1].to_vec()),
        (3, no_opcodes),
        (4, deep),
    ];
    for (number, bad) in cases {
        let mut fresh = machine(&bad);
        refuses(&mut fresh, number, |machine| machine.load());
        let mut bad = Machine::new(Image::new(&bad), loaded(&good).into_memory());
        all_but_a_load_refuse(&mut bad, number);
    }
}

#[test]
fn nothing_but_a_load_is_taken_before_a_load() {
    let image = null_return();
    let mut machine = machine(&image);
    all_but_a_load_refuse(&mut machine, 10);
    assert_eq!(machine.view().frames().map(drop), Err(Refusal::NotLoaded));
}

#[test]
fn memory_that_was_changed_by_hand_is_refused_with_7_until_the_next_load() {
    let image = null_return();
    let mut machine = started(&image, &[]);
    machine.memory_mut().parts_mut().1[0] = 99;
    all_but_a_load_refuse(&mut machine, 7);
    assert_eq!(machine.view().frames().map(drop), Err(Refusal::NotInForm));
    assert_eq!(machine.load(), Ok(OUTERMOST));
}

#[test]
fn a_view_of_any_bytes_ends() {
    let image = identity();
    let mut machine = waiting(&image);
    let [state, live, store] = memory(&machine);
    for at in (0..64).chain(4_160..4_180) {
        for byte in [1, 2, 64, 127, 255] {
            let (s, l, t) = machine.memory_mut().parts_mut();
            (s[at], l[at], t[at]) = (byte, byte, byte);
            let view = machine.view();
            let _ = (
                view.frames().map(drop),
                view.result().map(drop),
                view.waiting().map(drop),
                view.globals().map(drop),
                view.object(Handle(byte.into())).map(drop),
            );
            let (s, l, t) = machine.memory_mut().parts_mut();
            (s[at], l[at], t[at]) = (state[at], live[at], store[at]);
        }
    }
    let (s, ..) = machine.memory_mut().parts_mut();
    s[4..8].fill(255); // over four thousand million frames
    assert_eq!(machine.view().frames().map(drop), Err(Refusal::NotInForm));
}

#[test]
fn a_start_takes_a_function_and_its_arguments() {
    let image = identity();
    let mut machine = started(&image, &[Value::Int(-3)]);
    let frames = machine.view().frames().unwrap();
    assert_eq!((frames.len(), frames[0].callee, frames[0].place), (1, Callee::Closure(Handle(0)), 0));
    assert_eq!(frames[0].stack.to_vec(), [Value::Int(-3)]);
    refuses(&mut machine, 11, |machine| machine.start(OUTERMOST, &[Value::Null]));
    assert_eq!(run(&mut machine), Outcome { answer: Ok(Answer::Done), ticks: 1 });
    assert!(matches!(machine.view().result(), Ok(Some(RunResult::Value(Value::Int(-3))))));
    refuses(&mut machine, 11, |machine| machine.start(OUTERMOST, &[Value::Null]));
    assert_eq!(machine.clear(), Ok(()));
    assert_eq!(machine.start(OUTERMOST, &[Value::Null]), Ok(()));
}

#[test]
fn a_start_of_what_is_no_function_or_names_nothing_is_refused_with_5() {
    let image = identity();
    let mut machine = loaded(&image);
    let nowhere = Constant { code: 0, index: 99 };
    for function in [Value::Null, Value::Int(0), YIELD, Value::Closure(Handle(1)), Value::Continuation(Handle(0))] {
        refuses(&mut machine, 5, |machine| machine.start(function, &[]));
    }
    for argument in [
        Value::Str(nowhere),
        Value::Effect(nowhere),
        Value::List(Handle(0)),
        Value::Bytes(Constant { code: 1, index: 0 }),
    ] {
        refuses(&mut machine, 5, |machine| machine.start(OUTERMOST, &[argument]));
    }
}

#[test]
fn a_wrong_count_of_arguments_is_a_result() {
    let image = identity();
    let mut machine = started(&image, &[]);
    assert_eq!(run(&mut machine).answer, Ok(Answer::Done));
    assert!(matches!(
        machine.view().result(),
        Ok(Some(RunResult::CallArguments { least: 1, or_more: false, given: 0 }))
    ));
    assert_eq!(result_text(&machine), "error: a call needs 1 arguments and was given 0");
}

#[test]
fn up_to_4_096_values_come_with_a_start() {
    let image = Code { variadic: true, opcodes: &[(op::RETURN, 0)], ..Code::default() }.image();
    let mut machine = loaded(&image);
    let values = vec![Value::Bool(true); 4_097];
    refuses(&mut machine, 5, |machine| machine.start(OUTERMOST, &values));
    assert_eq!(machine.start(OUTERMOST, &values[..4_096]), Ok(()));
    assert_eq!(run(&mut machine).answer, Ok(Answer::Done));
    let Ok(Some(RunResult::Value(Value::List(handle)))) = machine.view().result() else { panic!("no list") };
    assert!(matches!(machine.view().object(handle), Ok(Object::List(items)) if items.to_vec() == values[..4_096]));
}

#[test]
fn the_live_stack_and_the_store_may_be_too_small_and_can_be_lengthened() {
    let image = identity();
    let mut machine = Machine::new(Image::new(&image), Memory::new(0, 0));
    refuses(&mut machine, 15, |machine| machine.load());
    machine.memory_mut().grow(0, 1);
    assert_eq!(machine.load(), Ok(OUTERMOST));
    refuses(&mut machine, 14, |machine| machine.start(OUTERMOST, &[Value::Null]));
    machine.memory_mut().grow(6, 1);
    refuses(&mut machine, 14, |machine| machine.start(OUTERMOST, &[Value::Null]));
    machine.memory_mut().grow(7, 1);
    assert_eq!(machine.start(OUTERMOST, &[Value::Null]), Ok(()));
    assert_eq!(run(&mut machine).answer, Ok(Answer::Done));
}

#[test]
fn a_run_that_lacks_room_goes_on_in_longer_memory() {
    let main: &[(u16, u32)] = &[(op::LOAD_CONST, 0), (op::LOAD_CONST, 0), (op::BUILD_LIST, 2), (op::RETURN, 0)];
    let image = Code { opcodes: main, constants: &[int(7)], ..Code::default() }.image();
    let mut machine = Machine::new(Image::new(&image), Memory::new(7, 1));
    machine.load().unwrap();
    machine.start(OUTERMOST, &[]).unwrap();
    assert_eq!(run(&mut machine), Outcome { answer: Err(Refusal::LiveFull), ticks: 1 });
    machine.memory_mut().grow(8, 1);
    assert_eq!(run(&mut machine), Outcome { answer: Err(Refusal::StoreFull), ticks: 1 });
    machine.memory_mut().grow(8, 4);
    assert_eq!(run(&mut machine), Outcome { answer: Ok(Answer::Done), ticks: 2 });
    assert_eq!(result_text(&machine), "list @1");
}

#[test]
fn a_run_answers_done_out_of_fuel_and_paused() {
    let image = null_return();
    for (lent, answer, left) in [(68, Answer::Done, 1), (67, Answer::OutOfFuel, 0)] {
        let (mut machine, mut fuel) = (started(&image, &[]), Fuel::new(lent));
        assert_eq!(machine.run(&mut fuel, 1_000), Outcome { answer: Ok(answer), ticks: 2 });
        assert_eq!(fuel.number(), left);
        assert_eq!(machine.run(&mut fuel, 0), Outcome { answer: Ok(Answer::Done), ticks: 0 });
    }
    let (mut machine, mut fuel) = (started(&image, &[]), Fuel::new(100));
    assert_eq!(machine.run(&mut fuel, 0), Outcome { answer: Ok(Answer::Paused), ticks: 0 });
    assert_eq!(machine.run(&mut fuel, 1), Outcome { answer: Ok(Answer::Paused), ticks: 1 });
    assert_eq!((fuel.number(), machine.view().slice_left()), (100, Ok(63)));
    assert_eq!(machine.run(&mut fuel, 1), Outcome { answer: Ok(Answer::Done), ticks: 1 });
}

#[test]
fn a_mark_ends_a_run_after_a_slice_and_stays() {
    let main: &[(u16, u32)] = &[(op::LOAD_CONST, 0), (op::CALL, 0), (op::RETURN, 0)];
    let inner = Code { opcodes: &[(op::LOAD_CONST, 0), (op::RETURN, 0)], constants: &[null()], ..Code::default() };
    let image = Code { opcodes: main, constants: &[function(0)], codes: &[inner], ..Code::default() }.image();
    let (mut machine, mut fuel) = (started(&image, &[]), Fuel::new(1_000));
    fuel.set_mark(true);
    assert_eq!(machine.run(&mut fuel, 1_000), Outcome { answer: Ok(Answer::OutOfFuel), ticks: 2 });
    assert!(fuel.mark());
    fuel.set_mark(false);
    assert_eq!(machine.run(&mut fuel, 1_000), Outcome { answer: Ok(Answer::Done), ticks: 3 });
}

#[test]
fn a_refused_run_keeps_its_ticks() {
    let main: &[(u16, u32)] = &[(op::LOAD_CONST, 0), (op::ADD, 0), (op::RETURN, 0)];
    let image = Code { opcodes: main, constants: &[int(1)], ..Code::default() }.image();
    let mut machine = started(&image, &[]);
    assert_eq!(run(&mut machine), Outcome { answer: Err(Refusal::FewValues), ticks: 1 });
    assert_eq!(machine.view().frames().unwrap()[0].stack.to_vec(), [Value::Int(1)]);
    assert_eq!(run(&mut machine), Outcome { answer: Err(Refusal::FewValues), ticks: 0 });
}

#[test]
fn the_host_answers_with_a_value_an_error_or_a_panic() {
    let image = identity();
    let mut fuel = Fuel::new(1_000);
    for (answer, result) in [
        (CallbackReturn::ReturnValue(Value::Int(9)), "9"),
        (CallbackReturn::Error(Value::Int(9)), "Error thrown with 9"),
        (CallbackReturn::Panic(Value::Int(9)), "Panic thrown with 9"),
    ] {
        let mut machine = waiting(&image);
        assert_eq!(args(&machine), (1, vec![Value::Int(5)]));
        refuses(&mut machine, 11, |machine| run(machine).answer);
        fuel.set_number(1_000);
        assert_eq!(machine.answer(&mut fuel, 2, answer), Ok(Answer::GoOn));
        assert_eq!(fuel.number(), 996);
        assert_eq!(result_text(&machine), result);
        assert_eq!(run(&mut machine), Outcome { answer: Ok(Answer::Done), ticks: 0 });
        refuses(&mut machine, 11, |machine| {
            machine.answer(&mut Fuel::new(1), 0, CallbackReturn::ReturnValue(Value::Null))
        });
    }
}

#[test]
fn the_host_answers_with_a_call_and_is_asked_again() {
    let image = identity();
    let mut machine = waiting(&image);
    let call = CallbackReturn::Call { function: OUTERMOST, args: &[Value::Int(3)], handlers: &[YIELD, YIELD] };
    assert_eq!(machine.answer(&mut Fuel::new(1_000), 2, call), Ok(Answer::GoOn));
    let frames = machine.view().frames().unwrap();
    assert_eq!((frames.len(), frames[0].callee), (2, Callee::Callback { number: 7, word: 2 }));
    assert_eq!(frames[0].handlers.iter().map(|handler| handler.effect).collect::<Vec<_>>(), [YIELD]);
    assert_eq!(run(&mut machine), Outcome { answer: Ok(Answer::Host), ticks: 1 });
    assert_eq!(args(&machine), (2, vec![Value::Int(3)]));
    let tail = CallbackReturn::TailCall { function: OUTERMOST, args: &[Value::Int(4)] };
    assert_eq!(machine.answer(&mut Fuel::new(1_000), 0, tail), Ok(Answer::GoOn));
    assert_eq!(run(&mut machine).answer, Ok(Answer::Done));
    assert_eq!(result_text(&machine), "4");
}

#[test]
fn the_host_performs_and_tail_performs() {
    let image = identity();
    let effect = Value::Effect(Constant { code: 0, index: 3 });
    let perform = CallbackReturn::Perform { effect, args: &[Value::Int(8)] };
    let tail = CallbackReturn::TailPerform { effect, args: &[Value::Int(8)] };
    for (answer, frames) in [(perform, 1), (tail, 0)] {
        let mut machine = waiting(&image);
        assert_eq!(machine.answer(&mut Fuel::new(1_000), 0, answer), Ok(Answer::GoOn));
        assert!(
            matches!(machine.view().result(), Ok(Some(RunResult::Effect { effect: unhandled, args })) if unhandled == effect && args.to_vec() == [Value::Int(8)])
        );
        assert_eq!(machine.view().frames().unwrap().len(), frames);
    }
}

#[test]
fn a_callback_handles_what_it_calls_and_resumes_it() {
    let inner: &[(u16, u32)] = &[(op::LOAD_CONST, 0), (op::CALL, 0), (op::RETURN, 0)];
    let image = Code { opcodes: inner, constants: &[effect(0, "e")], ..Code::default() }.image();
    let asks = Value::Effect(Constant { code: 0, index: 0 });
    let mut machine = waiting(&image);
    let call = CallbackReturn::Call { function: OUTERMOST, args: &[], handlers: &[asks] };
    assert_eq!(machine.answer(&mut Fuel::new(1_000), 1, call), Ok(Answer::GoOn));
    assert_eq!(run(&mut machine), Outcome { answer: Ok(Answer::Host), ticks: 3 });
    let (_, asked) = args(&machine);
    let [performed, Value::Continuation(handle)] = asked[..] else { panic!("{asked:?}") };
    assert_eq!(performed, asks);
    let Ok(Object::Continuation(frames)) = machine.view().object(handle) else { panic!("no continuation") };
    assert_eq!((frames.len(), frames[0].callee, frames[0].place), (1, Callee::Closure(Handle(0)), 2));
    let resume = CallbackReturn::TailCall { function: asked[1], args: &[Value::Int(30)] };
    assert_eq!(machine.answer(&mut Fuel::new(1_000), 1, resume), Ok(Answer::GoOn));
    assert_eq!(run(&mut machine).answer, Ok(Answer::Done));
    assert_eq!(result_text(&machine), "30");
}

#[test]
fn an_answer_of_the_wrong_type_or_with_too_many_values_is_refused() {
    let image = identity();
    let mut machine = waiting(&image);
    let mut fuel = Fuel::new(1_000);
    let many = vec![Value::Null; 4_097];
    let handlers: Vec<Value> =
        [2].into_iter().chain(5..21).map(|index| Value::Effect(Constant { code: 0, index })).collect();
    let call = |args, handlers| CallbackReturn::Call { function: OUTERMOST, args, handlers };
    for (number, answer) in [
        (5, CallbackReturn::Call { function: YIELD, args: &[], handlers: &[] }),
        (5, CallbackReturn::TailCall { function: Value::Null, args: &[] }),
        (5, CallbackReturn::Perform { effect: OUTERMOST, args: &[] }),
        (5, CallbackReturn::TailPerform { effect: Value::Null, args: &[] }),
        (5, CallbackReturn::ReturnValue(Value::List(Handle(0)))),
        (5, CallbackReturn::Error(Value::Closure(Handle(9)))),
        (5, CallbackReturn::Panic(Value::Str(Constant { code: 9, index: 0 }))),
        (5, call(&[], &[Value::Null])),
        (5, call(&many, &[])),
        (5, call(&many[..4_096], &handlers[..1])),
        (16, call(&[Value::Null], &handlers)),
    ] {
        refuses(&mut machine, number, |machine| machine.answer(&mut fuel, 9, answer));
        assert_eq!(fuel, Fuel::new(1_000));
    }
    assert_eq!(machine.answer(&mut fuel, 9, call(&[Value::Null], &handlers[..16])), Ok(Answer::GoOn));
    assert_eq!(machine.view().frames().unwrap()[0].handlers.len(), 16);
}

#[test]
fn an_answer_tests_fuel_after_its_charge() {
    let image = identity();
    for (lent, answer) in [(5, Answer::GoOn), (4, Answer::OutOfFuel), (i32::MIN, Answer::OutOfFuel)] {
        let (mut machine, mut fuel) = (waiting(&image), Fuel::new(lent));
        assert_eq!(machine.answer(&mut fuel, 0, CallbackReturn::ReturnValue(Value::Null)), Ok(answer));
        assert_eq!(fuel.number(), lent.saturating_sub(4));
    }
}

#[test]
fn the_257th_frame_is_refused_with_13() {
    let main: &[(u16, u32)] = &[(op::LOAD_GLOBAL, 0), (op::CALL, 0), (op::RETURN, 0)];
    let image = Code { opcodes: main, globals: &[9], ..Code::default() }.image();
    let mut machine = loaded(&image);
    machine.set_global(9, OUTERMOST).unwrap();
    machine.start(OUTERMOST, &[]).unwrap();
    assert_eq!(run(&mut machine), Outcome { answer: Err(Refusal::ManyFrames), ticks: 2 * 255 + 1 });
    assert_eq!(machine.view().frames().unwrap().len(), 256);
}

#[test]
fn clear_ends_a_wait_and_keeps_globals_and_store() {
    let image = identity();
    let mut machine = waiting(&image);
    machine.set_global(3, Value::Int(1)).unwrap();
    assert_eq!(machine.clear(), Ok(()));
    let view = machine.view();
    assert!(view.waiting().unwrap().is_none() && view.result().unwrap().is_none() && view.frames().unwrap().is_empty());
    assert_eq!((view.store_used(), machine.global(3)), (Ok(1), Ok(Value::Int(1))));
}

#[test]
fn text_and_bytes_are_parts_of_image_or_page() {
    let image = identity();
    let (word, part): (Text<'_, '_>, &[u8]) = {
        let machine = loaded(&image);
        let constant = |index| Constant { code: 0, index };
        assert_eq!(machine.text(&[], Value::Bytes(constant(1))), Err(Refusal::BadValue));
        assert_eq!(machine.bytes(Value::Str(constant(0))), Err(Refusal::BadValue));
        assert_eq!(machine.bytes(Value::Message(Message::CallArguments)), Err(Refusal::BadValue));
        // Parts of the image outlive the machine.
        (machine.text(&[], Value::Str(constant(0))).unwrap(), machine.bytes(Value::Bytes(constant(1))).unwrap())
    };
    assert_eq!((word.as_str(), part), (Ok("via"), &[0, 255][..]));
    assert_eq!(word, Text::Image(b"via"));
    let machine = loaded(&image);
    let page = *b"wrong count\n\nthird\nlast without an end";
    let message = |message| machine.text(&page, Value::Message(message));
    assert_eq!(message(Message::CallArguments), Ok(Text::Page(b"wrong count")));
    assert_eq!(message(Message::UnOperator), Ok(Text::Page(b"")));
    assert_eq!(message(Message::BinOperator), Ok(Text::Page(b"third")));
    assert_eq!(message(Message::MetaUnOperator), Ok(Text::Page(b"")));
    assert_eq!(machine.text(&[], Value::Message(Message::ZeroDivisor)), Ok(Text::Page(b"")));
    assert_eq!(machine.text(&[0xff, 10], Value::Message(Message::CallArguments)).unwrap().to_str_lossy(), "\u{fffd}");
}

#[test]
fn globals_and_builtins_have_numbers_to_255() {
    let image = identity();
    let mut machine = loaded(&image);
    machine.set_global(255, Value::Int(1)).unwrap();
    machine.set_builtin(255, Value::Callback { number: 3, word: 4 }).unwrap();
    machine.set_builtin(0, Value::float(1.5)).unwrap();
    assert_eq!(
        (machine.global(255), machine.builtin(255)),
        (Ok(Value::Int(1)), Ok(Value::Callback { number: 3, word: 4 }))
    );
    assert_eq!((machine.global(0), machine.builtin(0)), (Ok(Value::Null), Ok(Value::float(1.5))));
    assert_eq!((machine.global(256), machine.builtin(256)), (Err(Refusal::BadValue), Err(Refusal::BadValue)));
    assert_eq!((machine.global(u32::MAX), machine.builtin(u32::MAX)), (Err(Refusal::BadValue), Err(Refusal::BadValue)));
    for number in [256, u32::MAX] {
        refuses(&mut machine, 5, |machine| machine.set_global(number, Value::Null));
        refuses(&mut machine, 5, |machine| machine.set_builtin(number, Value::Null));
    }
    refuses(&mut machine, 5, |machine| machine.set_global(0, Value::List(Handle(0))));
    refuses(&mut machine, 5, |machine| machine.set_builtin(0, Value::Effect(Constant { code: 0, index: 0 })));
    let view = machine.view();
    assert_eq!(
        (view.globals().unwrap().get(255), view.builtins().unwrap().get(0)),
        (Some(Value::Int(1)), Some(Value::float(1.5)))
    );
    assert_eq!(view.globals().unwrap().get(256), None);
}

#[test]
fn every_result_is_read() {
    let ends = |opcodes: &[(u16, u32)], constants: &[Vec<u8>]| {
        let image = Code { opcodes, constants, ..Code::default() }.image();
        let mut machine = started(&image, &[]);
        assert_eq!(run(&mut machine).answer, Ok(Answer::Done));
        result_text(&machine)
    };
    let load = |index| (op::LOAD_CONST, index);
    let end = (op::RETURN, 0);
    assert_eq!(ends(&[load(0), (op::NOT, 0), end], &[int(1)]), "error: Not can't take Int");
    assert_eq!(
        ends(&[load(0), load(0), (op::CHECK_EFFECT, 0), end], &[int(1), builtin(0)]),
        "error: CheckEffect can't take Int and Int"
    );
    assert_eq!(ends(&[load(0), (op::CALL, 0), end], &[int(1)]), "error: Int has no Call");
    assert_eq!(ends(&[load(0), load(1), (op::ADD, 0), end], &[int(1), text("a")]), "error: Int and Str have no Add");
    assert_eq!(ends(&[load(0), load(0), (op::DIV, 0), end], &[int(0)]), "error: a division by 0");
    assert_eq!(
        ends(&[load(0), load(1), (op::CALL, 1), end], &[builtin(1), int(6)]),
        "effect Error, which no frame handles, with 1 arguments"
    );
    assert_eq!(
        ends(&[load(0), (op::CALL, 0), end], &[effect(0, "e")]),
        "effect (code 0, constant 0), which no frame handles, with 0 arguments"
    );
    assert_eq!(ends(&[load(0), end], &[bytes(&[])]), "bytes (code 0, constant 0)");
    assert_eq!(Value::Message(Message::ZeroDivisor).kind(), Type::Str);
}

#[test]
fn handlers_locals_and_upvalues_are_read() {
    let main: &[(u16, u32)] =
        &[(op::LOAD_CONST, 1), (op::STORE_LOCAL, 1), (op::LOAD_CONST, 0), (op::REGISTER_HANDLER, 4), (op::JUMP, 4)];
    let image = Code {
        locals: 2,
        opcodes: main,
        captures: &[(0, 0), (0, 0)],
        constants: &[effect(0, "e"), int(5)],
        ..Code::default()
    }
    .image();
    let mut machine = started(&image, &[]);
    assert_eq!(machine.run(&mut Fuel::new(1_000), 4), Outcome { answer: Ok(Answer::Paused), ticks: 4 });
    let frames = machine.view().frames().unwrap();
    assert_eq!(frames[0].locals.to_vec(), [Value::Null, Value::Int(5)]);
    let handler = frames[0].handlers.iter().next().unwrap();
    assert_eq!((handler.effect, handler.target), (Value::Effect(Constant { code: 0, index: 0 }), 4));
    assert!(
        matches!(machine.view().object(Handle(0)), Ok(Object::Closure { code: 0, upvalues }) if upvalues.to_vec() == [Value::Null; 2])
    );
    assert!(machine.view().object(Handle(1)).is_err() && machine.view().object(Handle(u32::MAX)).is_err());
    // It jumps in a circle: ticks end it, fuel does not.
    assert_eq!(machine.run(&mut Fuel::new(1), 1_000), Outcome { answer: Ok(Answer::Paused), ticks: 1_000 });
}

#[test]
fn a_job_may_be_borrowed_copied_and_moved() {
    let image = null_return();
    let (mut state, mut live, mut store) = (vec![0xaa; 8_256], vec![0xaa; 16 * 20 + 15], vec![0xaa; 16 * 3 + 1]);
    let mut machine = Machine::new(Image::new(&image), Memory::borrowed(&mut state, &mut live, &mut store));
    machine.load().unwrap();
    machine.start(OUTERMOST, &[]).unwrap();
    let _ = machine.run(&mut Fuel::new(100), 1);
    let [mut state, mut live, mut store] = memory(&machine);
    assert_eq!((&live[16 * 20..], &store[16..]), (&[0xaa; 15][..], &[0xaa; 33][..]));
    let mut copy = Machine::new(Image::new(&image), Memory::borrowed(&mut state, &mut live, &mut store));
    for machine in [&mut machine, &mut copy] {
        assert_eq!(machine.run(&mut Fuel::new(100), 9), Outcome { answer: Ok(Answer::Done), ticks: 1 });
        assert_eq!(result_text(machine), "null");
    }
}
