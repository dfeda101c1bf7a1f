//! Questions about fuel with the answers of the unchanged `fuel.rs`, as the program `fuel_replay` of our own reads and writes them.

use lucia::fuel::Fuel;

use crate::random::Random;

/// Numbers at the ends of i32, around 0, and those that the executor charges.
const EDGES: [i32; 14] =
    [i32::MIN, i32::MIN + 1, i32::MIN + 67, -68, -1, 0, 1, 4, 8, 67, 68, i32::MAX - 67, i32::MAX - 1, i32::MAX];
const MARKS: [u8; 4] = [0, 0, 1, 7];
const OPERATIONS: usize = 9;

/// One question: fuel as it is lent, an operation's number and its two numbers.
pub struct Question {
    fuel: i32,
    mark: u8,
    operation: u8,
    x: i32,
    max: i32,
}

/// The questions of a seed.
pub fn questions(seed: u64, count: usize) -> Vec<Question> {
    let mut random = Random::new(seed);
    let mut question = |_| Question {
        fuel: number(&mut random),
        mark: *random.pick(&MARKS),
        operation: random.below(OPERATIONS) as u8,
        x: number(&mut random),
        max: number(&mut random),
    };
    (0..count).map(&mut question).collect()
}

fn number(random: &mut Random) -> i32 {
    if random.chance(2, 3) { *random.pick(&EDGES) } else { random.next_u64() as i32 }
}

impl Question {
    /// 16 bytes: fuel and the two numbers as loans of 5 bytes, then the operation.
    pub fn bytes(&self) -> Vec<u8> {
        let loan = |number: i32, mark: u8| [&number.to_le_bytes()[..], &[mark]].concat();
        [loan(self.fuel, self.mark), loan(self.x, 0), loan(self.max, 0), vec![self.operation]].concat()
    }

    /// What the Rust answers, in 6 bytes: the loan with its mark byte left, then 2 if it is interrupted, else 1 if it should continue.
    pub fn answer(&self) -> Vec<u8> {
        let fuel = self.operated();
        let flags = if fuel.is_interrupted() { 2 } else { u8::from(fuel.should_continue()) };
        [&fuel.remaining().to_le_bytes()[..], &[self.mark, flags]].concat()
    }

    fn operated(&self) -> Fuel {
        let mut fuel = Fuel::with(self.fuel);
        if self.mark != 0 {
            fuel.interrupt();
        }
        match self.operation {
            0 => fuel.adjust(self.x),
            // 6 is the charge of a lent fuel, which is a `consume`.
            1 | 6 => fuel.consume(self.x),
            2 => fuel.refill(self.x, self.max),
            3 => fuel.set_remaining(self.x),
            4 => fuel.interrupt(),
            5 => fuel.clear_interrupt(),
            7 => fuel = Fuel::with(self.x),
            _ => fuel = Fuel::empty(),
        }
        fuel
    }
}
