//! One list of calls on two machines: answer, fuel and memory must be the same after each call.

use crate::{
    call::Machine,
    case,
    step::{After, Step},
};

/// The first step after which two machines differ.
#[derive(Debug)]
pub struct Difference {
    /// The step's number in the list, from 0.
    pub number: usize,
    pub expected: After,
    pub found: After,
}

/// Plays the list on a new machine and compares with what another one left.
pub fn compare(list: &[(Step, After)], machine: &mut dyn Machine) -> Option<Difference> {
    list.iter().enumerate().find_map(|(number, (step, expected))| {
        let found = step.play(machine);
        (found != *expected).then(|| Difference { number, expected: expected.clone(), found })
    })
}

/// The seed, the call's number, and both dumps; a line that only one of them has is marked.
pub fn report(seed: u64, list: &[(Step, After)], difference: &Difference) -> String {
    let call = &list[difference.number].0.call;
    let (expected, found) = (difference.expected.dump(call), difference.found.dump(call));
    let number = difference.number + 1;
    let mut lines = vec![format!("seed {seed}: call {number} differs: {}", case::call_text(call)), "expected".into()];
    lines.extend(marked(&expected, &found));
    lines.push("found".into());
    lines.extend(marked(&found, &expected));
    lines.join("\n")
}

fn marked(lines: &[String], others: &[String]) -> Vec<String> {
    let mark = |line: &String| if others.contains(line) { "   " } else { " * " };
    lines.iter().map(|line| format!("{}{line}", mark(line))).collect()
}

#[cfg(test)]
mod tests {
    use super::*;
    use crate::{
        call::{Answer, Call, Lent, code},
        driver::Driver,
        generate,
        snapshot::Snapshot,
    };

    /// A machine that reports one tick too many when it pauses.
    struct Liar(Driver);

    impl Machine for Liar {
        fn call(&mut self, lent: Lent<'_>, call: &Call) -> Answer {
            let mut answer = self.0.call(lent, call);
            answer.ticks += u32::from(answer.code == code::PAUSED);
            answer
        }

        fn snapshot(&self) -> Snapshot {
            self.0.snapshot()
        }
    }

    #[test]
    fn a_machine_agrees_with_itself_and_a_lie_is_found() {
        let mut found = 0;
        for seed in 0..20 {
            let mut list = Vec::new();
            generate::list(seed, &mut Driver::new(), &mut |step, after| list.push((step.clone(), after.clone())));
            assert!(compare(&list, &mut Driver::new()).is_none());
            if let Some(difference) = compare(&list, &mut Liar(Driver::new())) {
                found += 1;
                assert!(report(seed, &list, &difference).contains("\n * ticks "));
            }
        }
        assert!(found > 5);
    }
}
