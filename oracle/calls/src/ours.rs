//! The exported functions of include/lucia.h.

use player::{
    call::{Answer, Call},
    cell::Cell,
    plain::Memory,
    record::lists,
};

#[repr(C)]
struct Got {
    code: u32,
    low: u64,
    high: u64,
}

#[repr(C)]
struct Part {
    code: u32,
    from: u32,
    start: u64,
    len: u64,
}

#[repr(C)]
struct Ran {
    code: u32,
    ticks: u32,
}

type Bytes = *const u8;
type Lent = *mut u8;

// Image, state block, live stack and store come first, each with its length.
#[rustfmt::skip]
unsafe extern "C" {
    fn lucia_load(i: Bytes, il: usize, s: Lent, sl: usize, l: Bytes, ll: usize, t: Lent, tl: usize) -> Got;
    fn lucia_start(
        i: Bytes, il: usize, s: Lent, sl: usize, l: Lent, ll: usize, t: Lent, tl: usize, low: u64, high: u64,
        args: Bytes, al: usize,
    ) -> u32;
    fn lucia_answer(
        i: Bytes, il: usize, s: Lent, sl: usize, l: Lent, ll: usize, t: Lent, tl: usize, f: Lent, fl: usize,
        kind: u32, word: u64, low: u64, high: u64, args: Bytes, al: usize, handlers: Bytes, hl: usize,
    ) -> u32;
    fn lucia_run(
        i: Bytes, il: usize, s: Lent, sl: usize, l: Lent, ll: usize, t: Lent, tl: usize, f: Lent, fl: usize, ticks: u32,
    ) -> Ran;
    fn lucia_clear(i: Bytes, il: usize, s: Lent, sl: usize, l: Bytes, ll: usize, t: Bytes, tl: usize) -> u32;
    fn lucia_text(
        i: Bytes, il: usize, s: Bytes, sl: usize, l: Bytes, ll: usize, t: Bytes, tl: usize, page: Bytes, pl: usize,
        low: u64, high: u64,
    ) -> Part;
    fn lucia_bytes(
        i: Bytes, il: usize, s: Bytes, sl: usize, l: Bytes, ll: usize, t: Bytes, tl: usize, low: u64, high: u64,
    ) -> Part;
    fn lucia_set_global(
        i: Bytes, il: usize, s: Lent, sl: usize, l: Bytes, ll: usize, t: Bytes, tl: usize, number: u32,
        low: u64, high: u64,
    ) -> u32;
    fn lucia_get_global(
        i: Bytes, il: usize, s: Bytes, sl: usize, l: Bytes, ll: usize, t: Bytes, tl: usize, number: u32,
    ) -> Got;
    fn lucia_set_builtin(
        i: Bytes, il: usize, s: Lent, sl: usize, l: Bytes, ll: usize, t: Bytes, tl: usize, number: u32,
        low: u64, high: u64,
    ) -> u32;
    fn lucia_get_builtin(
        i: Bytes, il: usize, s: Bytes, sl: usize, l: Bytes, ll: usize, t: Bytes, tl: usize, number: u32,
    ) -> Got;
}

impl From<Got> for Answer {
    fn from(Got { code, low, high }: Got) -> Answer {
        Answer { code, value: Cell::new(low as u32, (low >> 32) as u32, high), ..Answer::default() }
    }
}

impl From<Part> for Answer {
    fn from(Part { code, from, start, len }: Part) -> Answer {
        Answer { code, from, start, len, ..Answer::default() }
    }
}

/// One of the eleven calls.
pub fn call(image: &[u8], memory: &mut Memory, fuel: &mut [u8], page: &[u8], call: &Call) -> Answer {
    lent_call(image, memory, fuel, page, lists(call), call)
}

/// A call whose lists stand elsewhere.
pub fn lent_call(
    image: &[u8],
    memory: &mut Memory,
    fuel: &mut [u8],
    page: &[u8],
    lists: [&[u8]; 2],
    call: &Call,
) -> Answer {
    let (i, il) = (image.as_ptr(), image.len());
    let (s, sl) = (memory.state.as_mut_ptr(), memory.state.len());
    let (l, ll) = (memory.live.as_mut_ptr(), memory.live.len());
    let (t, tl) = (memory.store.as_mut_ptr(), memory.store.len());
    let (f, fl) = (fuel.as_mut_ptr(), fuel.len());
    let (page, pl) = (page.as_ptr(), page.len());
    let [(a, al), (h, hl)] = lists.map(|list| (list.as_ptr(), list.len()));
    // SAFETY: pointers and lengths are those of slices that live through the call and, but for image and page, do not overlap.
    unsafe {
        match *call {
            Call::Load => lucia_load(i, il, s, sl, l, ll, t, tl).into(),
            Call::Start { function, .. } => {
                Answer::of(lucia_start(i, il, s, sl, l, ll, t, tl, function.low(), function.high(), a, al))
            }
            Call::Run { ticks } => {
                let Ran { code, ticks } = lucia_run(i, il, s, sl, l, ll, t, tl, f, fl, ticks);
                Answer { code, ticks, ..Answer::default() }
            }
            Call::Answer { kind, word, subject, .. } => {
                let (low, high) = (subject.low(), subject.high());
                Answer::of(lucia_answer(i, il, s, sl, l, ll, t, tl, f, fl, kind, word, low, high, a, al, h, hl))
            }
            Call::Clear => Answer::of(lucia_clear(i, il, s, sl, l, ll, t, tl)),
            Call::Text { value } => lucia_text(i, il, s, sl, l, ll, t, tl, page, pl, value.low(), value.high()).into(),
            Call::Bytes { value } => lucia_bytes(i, il, s, sl, l, ll, t, tl, value.low(), value.high()).into(),
            Call::SetGlobal { number, value } => {
                Answer::of(lucia_set_global(i, il, s, sl, l, ll, t, tl, number, value.low(), value.high()))
            }
            Call::GetGlobal { number } => lucia_get_global(i, il, s, sl, l, ll, t, tl, number).into(),
            Call::SetBuiltin { number, value } => {
                Answer::of(lucia_set_builtin(i, il, s, sl, l, ll, t, tl, number, value.low(), value.high()))
            }
            Call::GetBuiltin { number } => lucia_get_builtin(i, il, s, sl, l, ll, t, tl, number).into(),
        }
    }
}
