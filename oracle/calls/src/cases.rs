//! The cases of oracle/cases by ours: what must come out is looked for in what our memory holds, and every call is compared with the Rust's.

use player::{
    call::{Answer, Call, Lent, Machine, code},
    case::Case,
    driver::Driver,
    image::{self, Program},
    snapshot::Snapshot,
    step::{After, Step},
};

use crate::kept::Kept;

/// Ours, with the Rust beside it.
struct Both {
    driver: Driver,
    kept: Kept,
    /// The loaded image's.
    program: Option<Program>,
    /// The first difference.
    differs: Result<(), String>,
}

/// Plays a case; its expectations are looked for in what ours left.
pub fn play(case: &Case) -> Result<(), String> {
    let mut both = Both { driver: Driver::new(), kept: Kept::default(), program: None, differs: Ok(()) };
    let played = case.play(&mut both, &mut |_, _| ()).map_err(|failure| failure.to_string());
    played.and(both.differs).and_then(|()| both.kept.end()).map_err(|what| format!("case {}: {what}", case.name))
}

impl Machine for Both {
    fn call(&mut self, lent: Lent<'_>, call: &Call) -> Answer {
        let Lent { image, loans, fuel, page } = lent;
        let step = Step { image: image.into(), loans, fuel: fuel.to_vec(), page: page.into(), call: call.clone() };
        let answer = self.driver.call(Lent { image, loans, fuel: &mut *fuel, page }, call);
        let after = After { answer, fuel: fuel.to_vec(), snapshot: self.driver.snapshot() };
        if self.differs.is_ok() {
            self.differs = self.kept.step(&step, &after);
        }
        if *call == Call::Load && answer.code == code::ACCEPTED {
            self.program = image::parse(image).ok();
        }
        answer
    }

    /// What our memory holds.
    fn snapshot(&self) -> Snapshot {
        self.program.as_ref().map_or_else(Snapshot::nothing_loaded, |program| self.kept.snapshot(program))
    }
}
