//! The driver where a case file can't say it: long lists of values, malformed cells, objects without end. The rest is in `cases/`.

use lucia::fuel::Fuel;
use player::{
    assemble::assemble,
    call::{Answer, Call, Lent, Loans, Machine, code},
    cell::{Cell, bytes_of, tag},
    driver::Driver,
};

/// A machine with its image, and fuel enough.
struct Host {
    machine: Driver,
    image: Vec<u8>,
}

const OUTERMOST: Cell = Cell::new(tag::CLOSURE, 0, 0);

impl Host {
    fn loaded(text: &str) -> Host {
        let mut host = Host { machine: Driver::new(), image: assemble(text).unwrap() };
        assert_eq!(host.call(&Call::Load), Answer { value: OUTERMOST, ..Answer::default() });
        host
    }

    fn call(&mut self, call: &Call) -> Answer {
        let mut fuel = [0xff, 0xff, 0xff, 0x7f, 0];
        self.machine.call(Lent { image: &self.image, loans: Loans::default(), fuel: &mut fuel, page: &[] }, call)
    }

    fn start(&mut self, args: &[Cell]) -> u32 {
        self.call(&Call::Start { function: OUTERMOST, args: bytes_of(args) }).code
    }

    fn run(&mut self, ticks: u32) -> u32 {
        self.call(&Call::Run { ticks }).code
    }
}

/// P13, by the unchanged `fuel.rs`.
#[test]
fn p13() {
    let mut fuel = Fuel::with(100);
    fuel.refill(10, 5);
    assert_eq!(fuel.remaining(), 5);
}

#[test]
fn malformed_cells_are_refused_with_5() {
    let mut host = Host::loaded("code main() { LoadConst effect e() Pop LoadConst \"text\" Return }");
    let malformed = [
        (tag::NULL, 1, 0),
        (tag::NULL, 0, 1),
        (tag::BOOL, 2, 0),
        (tag::BOOL, 1, 1),
        (tag::INT, 1, 0),
        (tag::FLOAT, 1, 0),
        (tag::STR, 0, 0),
        (tag::STR, 1, 1),
        (tag::STR, 0, 1 << 32 | 1),
        (tag::BYTES, 0, 1),
        (tag::LIST, 0, 0),
        (tag::CLOSURE, 1, 0),
        (tag::CLOSURE, 0, 1),
        (tag::CONTINUATION, 0, 0),
        (tag::BUILTIN_EFFECT, 3, 0),
        (tag::BUILTIN_EFFECT, 1, 1),
        (tag::MESSAGE, 0, 0),
        (tag::MESSAGE, 7, 0),
        (tag::USER_EFFECT, 0, 1),
        (9, 0, 0),
        (16, 0, 0),
        (22, 0, 0),
        (40, 0, 0),
    ];
    for (tag, number, payload) in malformed {
        let value = Cell::new(tag, number, payload);
        assert_eq!(host.call(&Call::SetGlobal { number: 0, value }), Answer::of(5), "{value:?}");
        assert_eq!(host.start(&[value]), 5, "{value:?}");
    }
}

#[test]
fn the_values_of_one_call() {
    let mut host = Host::loaded("code main(0, ...) { Return }");
    assert_eq!(host.start(&[Cell::NULL; 4_097]), 5);
    assert_eq!(host.start(&[Cell::NULL; 4_096]), code::ACCEPTED);
    assert_eq!(host.machine.snapshot().stored(), 1 + 1 + 4_096);
}

#[test]
fn a_long_chain_of_objects_is_dropped() {
    let mut host = Host::loaded("code main() { BuildList 0  again: BuildList 1  Jump again }");
    assert_eq!(host.start(&[]), code::ACCEPTED);
    assert_eq!(host.run(1_000_000), 15);
    assert_eq!(host.machine.snapshot().stored(), 65_536);
    assert_eq!(host.call(&Call::Load).code, code::ACCEPTED);
    assert_eq!(host.machine.snapshot().stored(), 1);
}

#[test]
fn shared_objects_are_compared_once() {
    let mut host = Host::loaded("code main() { BuildList 0  again: Copy 1  BuildList 2  Jump again }");
    assert_eq!(host.start(&[]), code::ACCEPTED);
    assert_eq!(host.run(20_000), code::PAUSED);
}
