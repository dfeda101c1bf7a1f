//! The calls as bytes and numbers: loans of every length around the one that is right, empty loans, malformed lists and kinds.

mod images;

use images::{identity, null_return};
use lucia::{
    Cell, STATE_BYTES, Value, list,
    raw::{self, Got, Lent, Part, Ran, Reply, Shown},
};

const OUTERMOST: (u64, u64) = (7, 0);
const NULL: (u64, u64) = (0, 0);
const RETURN_NULL: Reply<'static> = Reply { kind: 4, word: 0, subject: NULL, args: &[], handlers: &[] };

/// Image and memory of a job, of any length.
struct Job {
    image: Vec<u8>,
    state: Vec<u8>,
    live: Vec<u8>,
    store: Vec<u8>,
}

impl Job {
    fn new(image: Vec<u8>) -> Job {
        Job { image, state: vec![0; STATE_BYTES], live: vec![0; 16 * 64], store: vec![0; 16 * 64] }
    }

    fn loaded(image: Vec<u8>) -> Job {
        let mut job = Job::new(image);
        assert_eq!(raw::load(job.lent()), Got { code: 0, low: 7, high: 0 });
        job
    }

    /// Waits for callback 7, which the host started with no arguments.
    fn waiting() -> Job {
        let mut job = Job::loaded(identity());
        assert_eq!(raw::start(job.lent(), Cell::from(Value::Callback { number: 7, word: 1 }).halves(), &[]), 0);
        assert_eq!(raw::run(job.lent(), &mut [100, 0, 0, 0, 0], 0), Ran { code: 103, ticks: 0 });
        job
    }

    fn lent(&mut self) -> Lent<'_> {
        Lent { image: &self.image, state: &mut self.state, live: &mut self.live, store: &mut self.store }
    }

    fn shown(&self) -> Shown<'_> {
        Shown { image: &self.image, state: &self.state, live: &self.live, store: &self.store }
    }
}

fn refused(code: u32) -> (Got, Part, Ran) {
    (Got { code, low: 0, high: 0 }, Part { code, from: 0, start: 0, len: 0 }, Ran { code, ticks: 0 })
}

/// Sees that all eleven calls answer with this number and leave every byte.
fn all_refuse(job: &mut Job, number: u32) {
    let (got, part, ran) = refused(number);
    let before = (job.state.clone(), job.live.clone(), job.store.clone());
    let mut fuel = [100, 0, 0, 0, 0];
    assert_eq!(raw::load(job.lent()), got);
    assert_eq!(raw::start(job.lent(), OUTERMOST, &[]), number);
    assert_eq!(raw::run(job.lent(), &mut fuel, 1), ran);
    assert_eq!(raw::answer(job.lent(), &mut fuel, RETURN_NULL), number);
    assert_eq!(raw::clear(job.lent()), number);
    assert_eq!(raw::text(job.shown(), &[], NULL), part);
    assert_eq!(raw::bytes(job.shown(), NULL), part);
    assert_eq!(raw::set_global(job.lent(), 0, NULL), number);
    assert_eq!(raw::get_global(job.shown(), 0), got);
    assert_eq!(raw::set_builtin(job.lent(), 0, NULL), number);
    assert_eq!(raw::get_builtin(job.shown(), 0), got);
    assert_eq!(fuel, [100, 0, 0, 0, 0]);
    assert!((&job.state, &job.live, &job.store) == (&before.0, &before.1, &before.2));
}

#[test]
fn a_state_block_has_8_256_bytes() {
    for length in [0, 8_255, 8_257, 16_512] {
        let mut job = Job::loaded(null_return());
        job.state.resize(length, 0);
        all_refuse(&mut job, 6);
        job.image.clear(); // 6 is judged before the image
        all_refuse(&mut job, 6);
    }
    let mut job = Job::loaded(null_return());
    assert_eq!(raw::start(job.lent(), OUTERMOST, &[]), 0);
}

#[test]
fn fuel_has_5_bytes() {
    let mut job = Job::loaded(null_return());
    assert_eq!(raw::start(job.lent(), OUTERMOST, &[]), 0);
    for length in [0, 4, 6] {
        let mut fuel = vec![100; length];
        assert_eq!(raw::run(job.lent(), &mut fuel, 9), Ran { code: 6, ticks: 0 });
        assert_eq!(raw::answer(job.lent(), &mut fuel, RETURN_NULL), 6);
        assert_eq!(fuel, vec![100; length]);
    }
    let mut fuel = [100, 0, 0, 0, 0];
    assert_eq!(raw::run(job.lent(), &mut fuel, 9), Ran { code: 100, ticks: 2 });
    assert_eq!(fuel, [33, 0, 0, 0, 0]);
}

#[test]
fn any_other_mark_than_0_counts_as_set_and_is_left() {
    let mut job = Job::loaded(null_return());
    assert_eq!(raw::start(job.lent(), OUTERMOST, &[]), 0);
    let mut fuel = [100, 0, 0, 0, 77];
    assert_eq!(raw::run(job.lent(), &mut fuel, 9), Ran { code: 101, ticks: 2 });
    assert_eq!(fuel, [33, 0, 0, 0, 77]);
}

#[test]
fn empty_loans_are_refused_by_what_they_lack() {
    let mut job = Job::loaded(null_return());
    job.image.clear();
    all_refuse(&mut job, 1);
    let mut job = Job::loaded(null_return());
    job.live.clear();
    assert_eq!(raw::start(job.lent(), OUTERMOST, &[]), 14);
    job.store.clear();
    assert_eq!(raw::clear(job.lent()), 7); // less than is used
    assert_eq!(raw::load(job.lent()), refused(15).0);
}

#[test]
fn a_list_is_whole_cells() {
    let one = list(&[Value::Int(5)]);
    for length in [15, 17] {
        let args = [&one[..], &one].concat()[..length].to_vec();
        let mut job = Job::loaded(identity());
        assert_eq!(raw::start(job.lent(), OUTERMOST, &args), 5);
        let mut job = Job::waiting();
        let mut fuel = [100, 0, 0, 0, 0];
        assert_eq!(
            raw::answer(job.lent(), &mut fuel, Reply { kind: 2, subject: OUTERMOST, args: &args, ..RETURN_NULL }),
            5
        );
        assert_eq!(
            raw::answer(
                job.lent(),
                &mut fuel,
                Reply { kind: 0, subject: OUTERMOST, args: &one, handlers: &args, ..RETURN_NULL }
            ),
            5
        );
    }
    let mut job = Job::loaded(identity());
    assert_eq!(raw::start(job.lent(), OUTERMOST, &one), 0);
}

#[test]
fn what_an_answer_of_that_kind_does_not_use_is_empty() {
    let value = list(&[Value::Null]);
    let effect = Cell { tag: 24, number: 0, payload: 3 };
    let handlers = effect.to_bytes();
    for (kind, subject) in [(1, effect.halves()), (2, OUTERMOST), (3, effect.halves()), (4, NULL), (5, NULL), (6, NULL)]
    {
        let mut job = Job::waiting();
        let mut fuel = [100, 0, 0, 0, 0];
        let args: &[u8] = if kind < 4 { &value } else { &[] };
        let reply = Reply { kind, subject, args, ..RETURN_NULL };
        assert_eq!(raw::answer(job.lent(), &mut fuel, Reply { handlers: &handlers, ..reply }), 5);
        if kind >= 4 {
            assert_eq!(raw::answer(job.lent(), &mut fuel, Reply { args: &value, ..reply }), 5);
        }
        assert_eq!(raw::answer(job.lent(), &mut fuel, reply), 104, "kind {kind}");
    }
}

#[test]
fn kinds_of_an_answer_end_with_6() {
    for kind in [7, 8, u32::MAX] {
        let mut job = Job::waiting();
        assert_eq!(raw::answer(job.lent(), &mut [100, 0, 0, 0, 0], Reply { kind, ..RETURN_NULL }), 5);
    }
    let mut job = Job::waiting();
    assert_eq!(raw::answer(job.lent(), &mut [100, 0, 0, 0, 0], Reply { kind: 6, ..RETURN_NULL }), 104);
}

#[test]
fn a_malformed_value_is_refused_with_5() {
    let mut job = Job::loaded(identity());
    for cell in [
        (9, 0, 0),
        (0, 1, 0),
        (0, 0, 1),
        (1, 2, 0),
        (7, 0, 1),
        (8, 3, 0),
        (20, 0, 0),
        (20, 7, 0),
        (64, 0, 0),
        (128, 0, 0),
        (u32::MAX, u32::MAX, u64::MAX),
    ] {
        let (tag, number, payload) = cell;
        let halves = Cell { tag, number, payload }.halves();
        assert_eq!(raw::set_global(job.lent(), 0, halves), 5);
        assert_eq!(raw::text(job.shown(), &[], halves), refused(5).1);
        assert_eq!(raw::start(job.lent(), halves, &[]), 5);
    }
}
