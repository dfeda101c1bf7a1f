//! Loans between pages that no one may touch: a byte read or written in front of a loan or behind it ends the program at once.

use std::{
    cell::RefCell,
    ffi::{c_int, c_void},
    ptr,
};

use player::{
    call::{Answer, Call},
    plain::Memory,
    record::lists,
};

use crate::ours;

unsafe extern "C" {
    fn mmap(at: *mut c_void, len: usize, access: c_int, flags: c_int, file: c_int, offset: i64) -> *mut c_void;
    fn mprotect(at: *mut c_void, len: usize, access: c_int) -> c_int;
}

const PAGE: usize = 4_096;
/// More than a full store; a damaged image may be long too.
const LONGEST: usize = 1_200_000;
const READ_AND_WRITE: c_int = 3;
/// Private and of no file.
const FLAGS: c_int = 0x22;

/// Pages for one loan, with one in front and one behind that may not be touched.
struct Fenced {
    first: *mut u8,
    len: usize,
}

impl Fenced {
    fn new(longest: usize) -> Fenced {
        let len = longest.next_multiple_of(PAGE);
        // SAFETY: new pages of no file; two of them are shut, the others stay.
        unsafe {
            let base = mmap(ptr::null_mut(), len + 2 * PAGE, READ_AND_WRITE, FLAGS, -1, 0).cast::<u8>();
            assert!(base as isize != -1, "no pages");
            let first = base.add(PAGE);
            assert_eq!([base, first.add(len)].map(|page| mprotect(page.cast(), PAGE, 0)), [0, 0]);
            Fenced { first, len }
        }
    }

    /// A copy of the bytes that ends at the page behind, or begins at the one in front.
    fn put(&mut self, bytes: &[u8], at_end: bool) -> &mut [u8] {
        let len = bytes.len();
        assert!(len <= self.len, "{len} bytes are too many");
        let start = if at_end { self.len - len } else { 0 };
        // SAFETY: the bytes lie inside the pages, which are there as long as the program and lent out once at a time.
        let lent = unsafe { std::slice::from_raw_parts_mut(self.first.add(start), len) };
        lent.copy_from_slice(bytes);
        lent
    }
}

thread_local! {
    /// Image, state block, live stack, store, fuel, page, arguments, handlers.
    static FENCED: RefCell<[Fenced; 8]> = RefCell::new(std::array::from_fn(|_| Fenced::new(LONGEST)));
}

/// One of the eleven calls, each of its loans between fences.
pub fn call(image: &[u8], memory: &mut Memory, fuel: &mut [u8], page: &[u8], call: &Call, at_end: bool) -> Answer {
    FENCED.with_borrow_mut(|fenced| {
        let [args, handlers] = lists(call);
        let [f_image, f_state, f_live, f_store, f_fuel, f_page, f_args, f_handlers] = fenced;
        let mut lent = Memory {
            state: f_state.put(memory.state, at_end),
            live: f_live.put(memory.live, at_end),
            store: f_store.put(memory.store, at_end),
        };
        let lent_fuel = f_fuel.put(fuel, at_end);
        let image = f_image.put(image, at_end);
        let page = f_page.put(page, at_end);
        let lists = [f_args.put(args, at_end), f_handlers.put(handlers, at_end)];
        let answer = ours::lent_call(image, &mut lent, lent_fuel, page, lists.map(|list| &*list), call);
        memory.state.copy_from_slice(lent.state);
        memory.live.copy_from_slice(lent.live);
        memory.store.copy_from_slice(lent.store);
        fuel.copy_from_slice(lent_fuel);
        answer
    })
}
