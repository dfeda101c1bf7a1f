//! Values that the host gives: those of the last snapshot, constants of the program, its own, and now and then a wrong one.

use super::List;
use crate::{
    cell::{Cell, bytes_of, tag},
    image::Constant,
    snapshot::{Frame, Object},
};

/// The most values of one call.
const MOST_VALUES: usize = 4_096;

impl List {
    /// Any value.
    pub(super) fn value(&mut self) -> Cell {
        match self.random.below(30) {
            0..=8 => self.held_value(),
            9..=12 => self.constant_value(),
            13..=16 => Cell::int(self.random.below(20) as i64 - 5),
            17 => Cell::NULL,
            18 => Cell::new(tag::BOOL, self.random.below(2) as u32, 0),
            19 => Cell::new(tag::FLOAT, 0, 0x7ff8_0000_0000_0000),
            20 => Cell::new(tag::MESSAGE, 1 + self.random.below(6) as u32, 0),
            21..=24 => self.callback(),
            25..=26 => self.object(),
            27..=28 => self.effect(),
            _ => self.wrong_value(),
        }
    }

    /// A value for a global or builtin: often one that can be called.
    pub(super) fn set_value(&mut self) -> Cell {
        match self.random.below(5) {
            0..=2 => self.callback(),
            3 => self.function(),
            _ => self.value(),
        }
    }

    pub(super) fn callback(&mut self) -> Cell {
        Cell::new(tag::CALLBACK, self.random.below(9) as u32, self.word())
    }

    /// A function: mostly an object of the store.
    pub(super) fn function(&mut self) -> Cell {
        match self.random.below(24) {
            0..=8 => self.object_of(|object| matches!(object, Object::Continuation(_))),
            9..=17 => self.object_of(|object| matches!(object, Object::Closure { .. })),
            18..=21 => self.callback(),
            22 => self.held_value(),
            _ => self.value(),
        }
    }

    /// An effect: often one that a frame handles.
    pub(super) fn effect(&mut self) -> Cell {
        let handled: Vec<Cell> =
            self.snapshot.frames.iter().flat_map(|frame| &frame.handlers).map(|handler| handler.effect).collect();
        match self.random.below(24) {
            0..=11 if !handled.is_empty() => *self.random.pick(&handled),
            0..=18 => self.constant_of(|constant| matches!(constant, Constant::UserEffect { .. })),
            19..=22 => Cell::new(tag::BUILTIN_EFFECT, self.random.below(3) as u32, 0),
            _ => self.wrong_value(),
        }
    }

    pub(super) fn text_value(&mut self) -> Cell {
        match self.random.below(8) {
            0..=2 => self.constant_of(|constant| matches!(constant, Constant::Str(_))),
            3..=6 => Cell::new(tag::MESSAGE, 1 + self.random.below(6) as u32, 0),
            _ => self.value(),
        }
    }

    pub(super) fn bytes_value(&mut self) -> Cell {
        match self.random.below(4) {
            0 => self.value(),
            _ => self.constant_of(|constant| matches!(constant, Constant::Bytes(_))),
        }
    }

    /// A list of arguments, mostly as many as the function or effect takes.
    pub(super) fn args(&mut self, of: Cell) -> Vec<u8> {
        if self.random.chance(1, 150) {
            let count = *self.random.pick(&[60, MOST_VALUES - 6, MOST_VALUES, MOST_VALUES + 1]);
            return bytes_of(&vec![Cell::int(1); count]);
        }
        let (params, more) = self.params(of);
        let count = match self.random.below(25) {
            0 => self.random.below(4),
            _ => params + self.random.below(more + 1),
        };
        let cells: Vec<Cell> = (0..count).map(|_| self.value()).collect();
        self.list(&cells)
    }

    /// Effects for the frame of an answered call; about 16 different ones if the program has so many.
    pub(super) fn handlers(&mut self) -> Vec<u8> {
        let known = self.constants(|constant| matches!(constant, Constant::UserEffect { .. }));
        let mut cells: Vec<Cell> = (0..self.random.below(6)).map(|_| self.effect()).collect();
        if known.len() > 12 && self.random.chance(1, 3) {
            cells = known.into_iter().take(14 + self.random.below(20)).collect();
        }
        self.list(&cells)
    }

    /// The bytes of a list, now and then with one too few or too many.
    fn list(&mut self, cells: &[Cell]) -> Vec<u8> {
        let mut bytes = bytes_of(cells);
        if self.random.chance(1, 150) {
            bytes.push(0);
        } else if self.random.chance(1, 150) {
            bytes.pop();
        }
        bytes
    }

    /// How many arguments a value takes, and how many more it may take.
    fn params(&mut self, of: Cell) -> (usize, usize) {
        let more = |variadic| if variadic { 2 } else { 0 };
        match of.tag {
            tag::CLOSURE => {
                let code = self.object_at(of.number).and_then(|object| match object {
                    Object::Closure { code, .. } => self.program.codes.get(*code as usize),
                    _ => None,
                });
                code.map_or((0, 0), |code| (code.params.into(), more(code.variadic)))
            }
            tag::USER_EFFECT => {
                let code = self.program.codes.get(of.number as usize);
                match code.and_then(|code| code.constants.get(of.payload as usize)) {
                    Some(&Constant::UserEffect { params, variadic, .. }) => (params.into(), more(variadic)),
                    _ => (0, 0),
                }
            }
            tag::CALLBACK => (0, 3),
            _ => (1, 0),
        }
    }

    /// Handles with their objects.
    fn objects(&self) -> impl Iterator<Item = (u32, &Object)> {
        self.snapshot.store.iter().scan(0, |next, object| {
            let handle = *next;
            *next += object.cost() as u32;
            Some((handle, object))
        })
    }

    fn object_at(&self, handle: u32) -> Option<&Object> {
        self.objects().find(|&(at, _)| at == handle).map(|(_, object)| object)
    }

    fn object(&mut self) -> Cell {
        self.object_of(|_| true)
    }

    /// A value that names an object of the store, preferably a late one.
    pub(super) fn object_of(&mut self, wanted: fn(&Object) -> bool) -> Cell {
        let found: Vec<Cell> = self
            .objects()
            .filter(|(_, object)| wanted(object))
            .map(|(handle, object)| match object {
                Object::Closure { .. } => Cell::new(tag::CLOSURE, handle, 0),
                Object::List(_) => Cell::new(tag::LIST, handle, 0),
                Object::Continuation(_) => Cell::new(tag::CONTINUATION, handle, 0),
            })
            .collect();
        match found.as_slice() {
            [] => Cell::new(tag::CLOSURE, 0, 0),
            [.., last] if self.random.chance(1, 3) => *last,
            found => *self.random.pick(found),
        }
    }

    /// A value that a frame, a global or an object holds.
    fn held_value(&mut self) -> Cell {
        let of_frame = |frame: &Frame| frame.stack.iter().chain(&frame.locals).copied().collect::<Vec<_>>();
        let snapshot = &self.snapshot;
        let mut held: Vec<Cell> = snapshot.frames.iter().rev().take(4).flat_map(of_frame).collect();
        held.extend(snapshot.globals.iter().take(13).filter(|&&cell| cell != Cell::NULL));
        if let Some(Object::List(items)) = snapshot.store.last() {
            held.extend(items);
        }
        if held.is_empty() { Cell::NULL } else { *self.random.pick(&held) }
    }

    /// Values that name constants of the program.
    pub(super) fn constants(&self, wanted: fn(&Constant) -> bool) -> Vec<Cell> {
        let codes = (0..).zip(&self.program.codes);
        let all =
            codes.flat_map(|(code, of)| (0..).zip(&of.constants).map(move |(index, constant)| (code, index, constant)));
        all.filter(|(.., constant)| wanted(constant))
            .filter_map(|(code, index, constant)| {
                let tag = match constant {
                    Constant::Str(_) => tag::STR,
                    Constant::Bytes(_) => tag::BYTES,
                    Constant::UserEffect { .. } => tag::USER_EFFECT,
                    _ => return None,
                };
                Some(Cell::new(tag, code, index))
            })
            .collect()
    }

    fn constant_of(&mut self, wanted: fn(&Constant) -> bool) -> Cell {
        let found = self.constants(wanted);
        if found.is_empty() { Cell::new(tag::BUILTIN_EFFECT, 0, 0) } else { *self.random.pick(&found) }
    }

    fn constant_value(&mut self) -> Cell {
        self.constant_of(|_| true)
    }

    /// A cell of no kind, with bits that are not used, or naming what is not there.
    fn wrong_value(&mut self) -> Cell {
        let mut cell = match self.random.below(3) {
            0 => self.object(),
            1 => self.constant_value(),
            _ => Cell::new(tag::MESSAGE, 1, 0),
        };
        match self.random.below(8) {
            0 => cell.number += 1,
            1 => cell.payload += 1,
            2 => cell.payload = 1 << 40,
            3 => cell.tag = *self.random.pick(&[9, 16, 21, 25, 40, 55, 64, 128, u32::MAX]),
            4 => cell.number = u32::MAX,
            5 => cell = *self.random.pick(&[Cell::new(tag::BOOL, 2, 0), Cell::new(tag::BOOL, 1, 1)]),
            6 => cell = *self.random.pick(&[Cell::new(tag::MESSAGE, 0, 0), Cell::new(tag::MESSAGE, 7, 0)]),
            _ => cell = *self.random.pick(&[Cell::new(tag::BUILTIN_EFFECT, 3, 0), Cell::new(tag::INT, 1, 0)]),
        }
        cell
    }
}
