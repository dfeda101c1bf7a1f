//! One call of a list with all that it is lent, so that the list can be played on any machine.

use std::rc::Rc;

use crate::{
    call::{Answer, Call, Lent, Loans, Machine},
    snapshot::Snapshot,
    text,
};

#[derive(Clone, PartialEq, Eq, Debug)]
pub struct Step {
    pub image: Rc<[u8]>,
    pub loans: Loans,
    /// The fuel before the call.
    pub fuel: Vec<u8>,
    pub page: Rc<[u8]>,
    pub call: Call,
}

/// What a step leaves.
#[derive(Clone, PartialEq, Eq, Debug)]
pub struct After {
    pub answer: Answer,
    pub fuel: Vec<u8>,
    pub snapshot: Snapshot,
}

impl Step {
    pub fn play(&self, machine: &mut dyn Machine) -> After {
        let mut fuel = self.fuel.clone();
        let lent = Lent { image: &self.image, loans: self.loans, fuel: &mut fuel, page: &self.page };
        let answer = machine.call(lent, &self.call);
        After { answer, fuel, snapshot: machine.snapshot() }
    }
}

impl After {
    pub fn dump(&self, call: &Call) -> Vec<String> {
        text::dump(call, &self.answer, &self.fuel, &self.snapshot)
    }
}

/// Fuel as its 5 bytes.
pub fn fuel_bytes(number: i32, mark: u8) -> Vec<u8> {
    let mut bytes = number.to_le_bytes().to_vec();
    bytes.push(mark);
    bytes
}
