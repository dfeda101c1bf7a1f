//! Questions about Ints with the answers of the stand-in's own `meta_add` and the like, as the program `ints_replay` of our own reads and writes them.

use std::iter;

use lucia::{
    Context,
    compiler::value::MetaMethod,
    errors::Error,
    objects::{MetaResult, Value},
};

use crate::{
    opcode::{ADD, DIV, GE, GT, LE, LT, MUL, NEG, REM, SUB},
    random::Random,
};

/// Both ends, numbers around 0 and at the ends of 32 bits.
const EDGES: [i64; 16] = [
    i64::MIN,
    i64::MIN + 1,
    -(1 << 32),
    -(1 << 31),
    -2,
    -1,
    0,
    1,
    2,
    3,
    7,
    1 << 31,
    (1 << 32) - 1,
    1 << 32,
    i64::MAX - 1,
    i64::MAX,
];
/// Asked of every pair of edges.
const AT_EDGES: [u16; 6] = [ADD, SUB, MUL, DIV, REM, LT];
/// Asked of random numbers.
const ALL: [u16; 10] = [NEG, ADD, SUB, MUL, DIV, REM, GT, GE, LT, LE];

/// One question: an opcode's number and its two Ints, of which `Neg` takes the first.
pub struct Question {
    opcode: u16,
    a: i64,
    b: i64,
}

/// Every pair of edges first, then the random questions of a seed.
pub fn questions(seed: u64, count: usize) -> Vec<Question> {
    let mut random = Random::new(seed);
    let any =
        iter::repeat_with(|| Question { opcode: *random.pick(&ALL), a: number(&mut random), b: number(&mut random) });
    edges().chain(any).take(count).collect()
}

fn edges() -> impl Iterator<Item = Question> {
    let pairs = EDGES.iter().flat_map(|&a| EDGES.iter().map(move |&b| (a, b)));
    pairs.flat_map(|(a, b)| AT_EDGES.iter().map(move |&opcode| Question { opcode, a, b }))
}

/// An edge, or a number of any length.
fn number(random: &mut Random) -> i64 {
    if random.chance(1, 3) { *random.pick(&EDGES) } else { random.next_u64() as i64 >> random.below(64) }
}

impl Question {
    /// 17 bytes: the opcode's number and the two Ints.
    pub fn bytes(&self) -> Vec<u8> {
        [&[self.opcode as u8][..], &self.a.to_le_bytes(), &self.b.to_le_bytes()].concat()
    }

    /// What the stand-in answers, in 9 bytes: 0 and an Int, 1 and a Bool, or 2 for a zero divisor.
    pub fn answer(&self) -> Vec<u8> {
        let (kind, number) = match self.operated() {
            Ok(Value::Int(number)) => (0, number),
            Ok(Value::Bool(truth)) => (1, i64::from(truth)),
            Err(Error::ZeroDivisor) => (2, 0),
            other => unreachable!("two Ints give {other:?}"),
        };
        [&[kind][..], &number.to_le_bytes()].concat()
    }

    fn operated(&self) -> Result<Value, Error> {
        let (context, a, b) = (&Context::empty(), Value::Int(self.a), Value::Int(self.b));
        let result = match self.opcode {
            NEG => return a.meta_neg(context).map(value),
            ADD => a.meta_add(context, b),
            SUB => a.meta_sub(context, b),
            MUL => a.meta_mul(context, b),
            DIV => a.meta_div(context, b),
            REM => a.meta_rem(context, b),
            GT => a.meta_gt(context, b),
            GE => a.meta_ge(context, b),
            LT => a.meta_lt(context, b),
            LE => a.meta_le(context, b),
            opcode => unreachable!("{opcode} takes no Ints"),
        };
        result.map(value)
    }
}

fn value<const N: usize>(result: MetaResult<N>) -> Value {
    match result {
        MetaResult::ReturnValue { value } => value,
        other => unreachable!("an operator on Ints gives {other:?}"),
    }
}
