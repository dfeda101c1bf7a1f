//! The eleven functions of `include/lucia.h` over slices, number for number.
//!
//! A slice is a valid loan, and Rust's own rules keep those that are written to apart from all others, so nothing here is unsafe to call. Malformed values, lists of any length and numbers
//! of any size can be given: the executor refuses them. [`Machine`](crate::Machine) has the same calls with types.

/// Image and memory, lent to be changed.
#[derive(Debug)]
pub struct Lent<'a> {
    /// The image.
    pub image: &'a [u8],
    /// The state block.
    pub state: &'a mut [u8],
    /// The live stack.
    pub live: &'a mut [u8],
    /// The store.
    pub store: &'a mut [u8],
}

/// Image and memory, lent to be read.
#[derive(Clone, Copy, Debug)]
pub struct Shown<'a> {
    /// The image.
    pub image: &'a [u8],
    /// The state block.
    pub state: &'a [u8],
    /// The live stack.
    pub live: &'a [u8],
    /// The store.
    pub store: &'a [u8],
}

/// A code and a value, which is the two halves of its cell.
#[repr(C)]
#[derive(Clone, Copy, PartialEq, Eq, Debug)]
pub struct Got {
    /// 0, or the number of a refusal.
    pub code: u32,
    /// The cell's tag + 2^32 · number.
    pub low: u64,
    /// The cell's payload.
    pub high: u64,
}

/// A code and the ticks that a run took.
#[repr(C)]
#[derive(Clone, Copy, PartialEq, Eq, Debug)]
pub struct Ran {
    /// 100 to 103, or the number of a refusal.
    pub code: u32,
    /// Ticks taken.
    pub ticks: u32,
}

/// A code and a part of the image or of the page.
#[repr(C)]
#[derive(Clone, Copy, PartialEq, Eq, Debug)]
pub struct Part {
    /// 0, or the number of a refusal.
    pub code: u32,
    /// 0 for the image, 1 for the page.
    pub from: u32,
    /// The first byte of the part.
    pub start: u64,
    /// The bytes of the part.
    pub len: u64,
}

/// What the host answers a callback with.
#[derive(Clone, Copy, Debug)]
pub struct Reply<'a> {
    /// 0 Call, 1 Perform, 2 TailCall, 3 TailPerform, 4 ReturnValue, 5 Error, 6 Panic.
    pub kind: u32,
    /// The word that the callback's frame keeps.
    pub word: u64,
    /// The Function, the Effect or the value, as two halves.
    pub subject: (u64, u64),
    /// Cells one behind the other.
    pub args: &'a [u8],
    /// Cells one behind the other.
    pub handlers: &'a [u8],
}

type In = *const u8;
type Out = *mut u8;

// Image, state block, live stack and store come first, each with its length.
#[rustfmt::skip]
unsafe extern "C" {
    fn lucia_load(i: In, il: usize, s: Out, sl: usize, l: In, ll: usize, t: Out, tl: usize) -> Got;
    fn lucia_start(
        i: In, il: usize, s: Out, sl: usize, l: Out, ll: usize, t: Out, tl: usize, low: u64, high: u64, args: In, args_len: usize,
    ) -> u32;
    fn lucia_run(
        i: In, il: usize, s: Out, sl: usize, l: Out, ll: usize, t: Out, tl: usize, fuel: Out, fuel_len: usize, ticks: u32,
    ) -> Ran;
    fn lucia_answer(
        i: In, il: usize, s: Out, sl: usize, l: Out, ll: usize, t: Out, tl: usize, fuel: Out, fuel_len: usize,
        kind: u32, word: u64, low: u64, high: u64, args: In, args_len: usize, handlers: In, handlers_len: usize,
    ) -> u32;
    fn lucia_clear(i: In, il: usize, s: Out, sl: usize, l: In, ll: usize, t: In, tl: usize) -> u32;
    fn lucia_text(
        i: In, il: usize, s: In, sl: usize, l: In, ll: usize, t: In, tl: usize, page: In, page_len: usize, low: u64, high: u64,
    ) -> Part;
    fn lucia_bytes(i: In, il: usize, s: In, sl: usize, l: In, ll: usize, t: In, tl: usize, low: u64, high: u64) -> Part;
    fn lucia_set_global(
        i: In, il: usize, s: Out, sl: usize, l: In, ll: usize, t: In, tl: usize, number: u32, low: u64, high: u64,
    ) -> u32;
    fn lucia_get_global(i: In, il: usize, s: In, sl: usize, l: In, ll: usize, t: In, tl: usize, number: u32) -> Got;
    fn lucia_set_builtin(
        i: In, il: usize, s: Out, sl: usize, l: In, ll: usize, t: In, tl: usize, number: u32, low: u64, high: u64,
    ) -> u32;
    fn lucia_get_builtin(i: In, il: usize, s: In, sl: usize, l: In, ll: usize, t: In, tl: usize, number: u32) -> Got;
}

/// Calls a function with its loans in front.
macro_rules! call {
    ($function:ident, lent $lent:ident $(, $more:expr)*) => {
        // SAFETY: pointers and lengths are those of slices that live through the call; those that are written to overlap with no other.
        unsafe {
            $function(
                $lent.image.as_ptr(), $lent.image.len(), $lent.state.as_mut_ptr(), $lent.state.len(),
                $lent.live.as_mut_ptr(), $lent.live.len(), $lent.store.as_mut_ptr(), $lent.store.len(), $($more),*
            )
        }
    };
    ($function:ident, shown $shown:ident $(, $more:expr)*) => {
        // SAFETY: pointers and lengths are those of slices that live through the call; none is written to.
        unsafe {
            $function(
                $shown.image.as_ptr(), $shown.image.len(), $shown.state.as_ptr(), $shown.state.len(),
                $shown.live.as_ptr(), $shown.live.len(), $shown.store.as_ptr(), $shown.store.len(), $($more),*
            )
        }
    };
}

/// Loads an image into memory of any content, and gives the outermost closure.
pub fn load(lent: Lent<'_>) -> Got {
    call!(lucia_load, lent lent)
}

/// Starts a Function with arguments, which are cells one behind the other.
pub fn start(lent: Lent<'_>, (low, high): (u64, u64), args: &[u8]) -> u32 {
    call!(lucia_start, lent lent, low, high, args.as_ptr(), args.len())
}

/// Runs for so many ticks and charges the 5 bytes of fuel.
pub fn run(lent: Lent<'_>, fuel: &mut [u8], ticks: u32) -> Ran {
    call!(lucia_run, lent lent, fuel.as_mut_ptr(), fuel.len(), ticks)
}

/// Answers the host callback that waits, and charges the 5 bytes of fuel.
pub fn answer(lent: Lent<'_>, fuel: &mut [u8], reply: Reply<'_>) -> u32 {
    let Reply { kind, word, subject: (low, high), args, handlers } = reply;
    let (args_len, handlers_len) = (args.len(), handlers.len());
    let (args, handlers) = (args.as_ptr(), handlers.as_ptr());
    let (fuel_len, fuel) = (fuel.len(), fuel.as_mut_ptr());
    call!(lucia_answer, lent lent, fuel, fuel_len, kind, word, low, high, args, args_len, handlers, handlers_len)
}

/// Drops frames, result, wait and slice.
pub fn clear(lent: Lent<'_>) -> u32 {
    call!(lucia_clear, lent lent)
}

/// Where the text of a Str stands, in the image or in the page.
pub fn text(shown: Shown<'_>, page: &[u8], (low, high): (u64, u64)) -> Part {
    call!(lucia_text, shown shown, page.as_ptr(), page.len(), low, high)
}

/// Where the bytes of a Bytes stand in the image.
pub fn bytes(shown: Shown<'_>, (low, high): (u64, u64)) -> Part {
    call!(lucia_bytes, shown shown, low, high)
}

/// Sets a global by its name number.
pub fn set_global(lent: Lent<'_>, number: u32, (low, high): (u64, u64)) -> u32 {
    call!(lucia_set_global, lent lent, number, low, high)
}

/// Gives a global.
pub fn get_global(shown: Shown<'_>, number: u32) -> Got {
    call!(lucia_get_global, shown shown, number)
}

/// Sets a builtin by its name number.
pub fn set_builtin(lent: Lent<'_>, number: u32, (low, high): (u64, u64)) -> u32 {
    call!(lucia_set_builtin, lent lent, number, low, high)
}

/// Gives a builtin.
pub fn get_builtin(shown: Shown<'_>, number: u32) -> Got {
    call!(lucia_get_builtin, shown shown, number)
}
