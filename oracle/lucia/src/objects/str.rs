//! Document 01's stand-ins for Str and Bytes: each says where it comes from, so that it can be told apart as a value of a cell.

use std::{
    fmt,
    hash::{Hash, Hasher},
    rc::Rc,
};

use crate::objects::Value;

pub type RcStr = Rc<Str>;
pub type RcBytes = Rc<Bytes>;

/// A constant of the image: the number of its code, and its index there.
#[derive(Debug, Clone, Copy, PartialEq, Eq, Hash)]
pub struct Origin {
    pub code: u32,
    pub constant: u32,
}

#[derive(Debug, Clone)]
pub enum Str {
    /// A Str constant, or the name of an effect constant.
    Constant { origin: Origin, text: Vec<u8> },
    /// The message of an error, 1 to 6.
    Message(u32),
    /// A name of a global, by number; names of locals and parameters are all 0. No script sees one.
    Name(u32),
}

/// Constants are equal by their bytes, messages only if the same message.
impl PartialEq for Str {
    fn eq(&self, other: &Self) -> bool {
        match (self, other) {
            (Str::Constant { text, .. }, Str::Constant { text: other, .. }) => text == other,
            (Str::Message(number), Str::Message(other)) | (Str::Name(number), Str::Name(other)) => {
                number == other
            }
            _ => false,
        }
    }
}

impl Eq for Str {}

impl Hash for Str {
    fn hash<H: Hasher>(&self, state: &mut H) {
        match self {
            Str::Constant { text, .. } => text.hash(state),
            Str::Message(number) | Str::Name(number) => number.hash(state),
        }
    }
}

impl fmt::Display for Str {
    fn fmt(&self, f: &mut fmt::Formatter<'_>) -> fmt::Result {
        write!(f, "{self:?}")
    }
}

/// The text of an error is its message's number (`errors.rs`).
impl From<String> for Value {
    fn from(value: String) -> Value {
        let number = value.parse().expect("only errors give texts");
        Value::Str(Rc::new(Str::Message(number)))
    }
}

/// A Bytes constant; its bytes are read in the image and never by a script.
#[derive(Debug, Clone, PartialEq, Eq, Hash)]
pub struct Bytes(pub Origin);

impl From<Origin> for Bytes {
    fn from(value: Origin) -> Bytes {
        Bytes(value)
    }
}
