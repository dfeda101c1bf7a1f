//! Random lists of calls, of which ours carries out every run: on memory that holds what the oracle held before it, and must hold what the oracle holds after it.

use player::{
    call::{Answer, Call, Lent, Machine},
    driver::Driver,
    generate, image,
    memory::{read, write},
    random::Random,
    snapshot::Snapshot,
};

use crate::{ours, trial::Lending, values::Counts};

/// The oracle, and our runs beside it.
struct Beside<'a> {
    driver: Driver,
    random: Random,
    counts: &'a mut Counts,
    ticks: &'a mut u64,
    /// The first difference.
    differs: Result<(), String>,
}

/// Plays the list of a seed.
pub fn list(seed: u64, counts: &mut Counts, ticks: &mut u64) -> Result<(), String> {
    let mut beside = Beside { driver: Driver::new(), random: Random::new(!seed), counts, ticks, differs: Ok(()) };
    generate::list(seed, &mut beside, &mut |_, _| ());
    beside.differs.map_err(|what| format!("seed {seed}: {what}"))
}

impl Machine for Beside<'_> {
    fn call(&mut self, lent: Lent<'_>, call: &Call) -> Answer {
        let Call::Run { .. } = call else { return self.driver.call(lent, call) };
        let before = self.driver.snapshot();
        let mut fuel = lent.fuel.to_vec();
        let mut lending = Lending::new(&mut self.random, &write(&before).bytes(), lent.loans);
        let (image, loans, page) = (lent.image, lent.loans, lent.page);
        let ours = ours::call(image, &mut lending.memory(), &mut fuel, page, call);
        let oracle = self.driver.call(Lent { image, loans, fuel: &mut *lent.fuel, page }, call);
        if self.differs.is_ok() {
            self.differs = self.compare(image, &lending, ours, oracle, &fuel, lent.fuel);
        }
        oracle
    }

    fn snapshot(&self) -> Snapshot {
        self.driver.snapshot()
    }
}

impl Beside<'_> {
    /// Answer, ticks and fuel are the oracle's, and memory holds what the oracle holds.
    fn compare(
        &mut self,
        image: &[u8],
        lending: &Lending,
        ours: Answer,
        oracle: Answer,
        fuel: &[u8],
        charged: &[u8],
    ) -> Result<(), String> {
        if ours != oracle {
            return Err(format!("ours {ours:?}\noracle {oracle:?}"));
        }
        if fuel != charged {
            return Err(format!("fuel {fuel:?}, and the oracle's {charged:?}"));
        }
        *self.counts.entry(("run", oracle.code)).or_default() += 1;
        *self.ticks += u64::from(oracle.ticks);
        let Ok(program) = image::parse(image) else { return Ok(()) };
        let [state, live, store] = lending.shown();
        match read(&program, state, live, store) {
            Ok(held) if held != self.driver.snapshot() => Err(format!("memory holds another state\n{held:?}")),
            Err(number) if oracle.code >= 100 => Err(format!("left with {number}")),
            _ => Ok(()),
        }
    }
}
