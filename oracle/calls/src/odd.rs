//! Snapshots with one thing just inside or just outside the form, so that counts and cells still fit each other.

use player::{
    cell::{Cell, tag},
    image::Program,
    random::Random,
    snapshot::{Fault, Frame, FrameKind, Handler, Object, Outcome, Snapshot},
};

use crate::near::{Names, near, near_number};

pub struct Odd<'a> {
    pub program: &'a Program,
    pub names: &'a Names,
    pub good: &'a Snapshot,
}

/// A limit, or a number next to it.
fn around(random: &mut Random, limit: usize) -> usize {
    (limit + random.below(3)).saturating_sub(1)
}

impl Odd<'_> {
    pub fn snapshot(&self, random: &mut Random) -> Snapshot {
        let mut odd = self.good.clone();
        match random.below(16) {
            0..=5 if !odd.frames.is_empty() => {
                let at = if random.chance(1, 2) { odd.frames.len() - 1 } else { random.below(odd.frames.len()) };
                self.change(random, &mut odd.frames[at]);
            }
            0..=2 => odd.frames.push(self.frame(random)),
            3..=8 => {
                let object = self.object(random);
                odd.store.push(object);
            }
            9..=11 => odd.result = self.outcome(random),
            12 => (odd.wait, odd.left) = (random.chance(1, 2), around(random, 64) as u32),
            13 => (odd.wait, odd.result) = (random.chance(1, 2), Outcome::None),
            14 => odd.left = *random.pick(&[0, 1, 63, 64, 65]),
            _ if random.chance(1, 4) => odd.frames = vec![self.frame(random); around(random, 256)],
            _ => drop(odd.frames.pop()),
        }
        odd
    }

    /// A frame of the state, or a new one.
    fn frame(&self, random: &mut Random) -> Frame {
        let captured = self.good.store.iter().filter_map(|object| match object {
            Object::Continuation(frames) => Some(frames),
            _ => None,
        });
        let frames: Vec<&Frame> = self.good.frames.iter().chain(captured.flatten()).collect();
        if frames.is_empty() || random.chance(1, 8) {
            let locals = vec![Cell::NULL; self.program.codes[0].locals.into()];
            let kind = FrameKind::Lucia { closure: 0, place: 0 };
            return Frame { kind, locals, handlers: Vec::new(), stack: Vec::new() };
        }
        (*random.pick(&frames)).clone()
    }

    /// Opcodes of a Lucia frame's code.
    fn opcodes(&self, frame: &Frame) -> usize {
        let FrameKind::Lucia { closure, .. } = frame.kind else { return 0 };
        let mut objects = self.good.handles().zip(&self.good.store);
        let object = objects.find(|(handle, _)| *handle == closure as usize);
        match object {
            Some((_, Object::Closure { code, .. })) => self.program.codes[*code as usize].opcodes.len(),
            _ => 0,
        }
    }

    fn change(&self, random: &mut Random, frame: &mut Frame) {
        let opcodes = self.opcodes(frame);
        let effect = Cell::new(tag::BUILTIN_EFFECT, random.below(3) as u32, 0);
        let handler = Handler { effect, target: 0, stack_size: 0 };
        if frame.handlers.is_empty() && random.chance(1, 2) {
            frame.handlers.push(handler);
        }
        let some = random.below(frame.handlers.len().max(1));
        match random.below(10) {
            0 => frame.handlers.resize(around(random, 16), handler),
            1 => self.change_place(random, &mut frame.kind, opcodes),
            2 => frame.locals.push(Cell::NULL),
            3 => drop(frame.locals.pop()),
            4 => frame.kind = self.kind(random),
            5 => frame.stack.push(self.names.value(random)),
            6 => frame.stack.resize(around(random, 20), Cell::NULL),
            7 => frame
                .handlers
                .iter_mut()
                .skip(some)
                .take(1)
                .for_each(|handler| handler.effect = self.names.value(random)),
            8 => {
                frame.handlers.iter_mut().skip(some).take(1).for_each(|handler| handler.stack_size = random.next_u64())
            }
            _ => {
                let target = around(random, opcodes) as u32;
                frame.handlers.iter_mut().skip(some).take(1).for_each(|handler| handler.target = target);
            }
        }
    }

    fn change_place(&self, random: &mut Random, kind: &mut FrameKind, opcodes: usize) {
        if let FrameKind::Lucia { place, .. } = kind {
            *place = around(random, opcodes) as u32;
        }
    }

    fn kind(&self, random: &mut Random) -> FrameKind {
        let object = self.names.object(random).number;
        match random.below(4) {
            0 => FrameKind::Lucia { closure: object, place: 0 },
            1 => FrameKind::Host { number: random.next_u64() as u32, word: random.next_u64() },
            2 => FrameKind::Effect { effect: self.names.value(random) },
            _ => FrameKind::Effect { effect: Cell::new(tag::BUILTIN_EFFECT, random.below(3) as u32, 0) },
        }
    }

    /// An object that can stand at the end of the store, and names the one before it, itself, or any.
    fn object(&self, random: &mut Random) -> Object {
        let own = Cell::new(*random.pick(&[tag::LIST, tag::CLOSURE, tag::CONTINUATION]), self.good.stored() as u32, 0);
        let value = match random.below(8) {
            0..=1 => own,
            2 => near(random, own),
            _ => self.names.value(random),
        };
        match random.below(8) {
            0..=2 => {
                let last = self.program.codes.len() - 1;
                let code = if random.chance(1, 2) { random.below(last + 1) } else { around(random, last) };
                let captures = self.program.codes.get(code).map_or(0, |code| code.captures.len());
                let count = if random.chance(1, 4) { around(random, captures) } else { captures };
                Object::Closure { code: code as u32, upvalues: vec![value; count] }
            }
            3..=4 => Object::List(vec![value; random.below(4)]),
            5 if random.chance(1, 16) => Object::List(vec![Cell::NULL; around(random, 4_096)]),
            5 if random.chance(1, 8) => Object::Continuation(vec![self.frame(random); around(random, 256)]),
            _ => {
                let mut frames: Vec<Frame> = (0..random.below(4)).map(|_| self.frame(random)).collect();
                match frames.last_mut() {
                    Some(frame) if random.chance(1, 4) => frame.stack.push(value),
                    Some(frame) => self.change(random, frame),
                    None => {}
                }
                Object::Continuation(frames)
            }
        }
    }

    /// A result of any kind, its numbers at their limits.
    fn outcome(&self, random: &mut Random) -> Outcome {
        let opcode = around(random, 51) as u32;
        let name = around(random, 23) as u32;
        let of = [0, 0].map(|_| if random.chance(1, 2) { 3 } else { around(random, 9) as u32 });
        let operand = near_number(random, 5) as u32;
        let value = self.names.value(random);
        Outcome::Error(match random.below(10) {
            0 => return Outcome::Value(value),
            1 => return Outcome::Effect { effect: value, args: vec![self.names.value(random); random.below(3)] },
            2 => {
                let start = around(random, 32) as u64;
                let given = if random.chance(1, 2) { 1 } else { around(random, 4_096) as u64 };
                Fault::CallArguments { start, end: random.chance(1, 2).then_some(start), given }
            }
            3 => Fault::UnOperator { opcode, operand, of: of[0] },
            4 => Fault::BinOperator { opcode, operand, of },
            5 => Fault::MetaUnOperator { name, of: of[0] },
            6 => Fault::MetaBinOperator { name, of },
            7 => Fault::ZeroDivisor,
            8 => Fault::LuciaError(value),
            _ => Fault::LuciaPanic(value),
        })
    }
}
