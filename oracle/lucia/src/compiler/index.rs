//! Stand-in for the Rust's `index.rs`: one type of index for each table of a code.

use std::{fmt, ops::AddAssign};

use oxc_index::Idx;

macro_rules! define_index {
    ($($name:ident),*) => {
        $(
            #[derive(Debug, Clone, Copy, PartialEq, Eq, Hash)]
            pub struct $name(usize);

            impl $name {
                pub const fn new(index: usize) -> Self {
                    Self(index)
                }

                pub const fn index(self) -> usize {
                    self.0
                }
            }

            impl Idx for $name {
                fn from_usize(index: usize) -> Self {
                    Self(index)
                }

                fn index(self) -> usize {
                    self.0
                }
            }

            impl AddAssign<usize> for $name {
                fn add_assign(&mut self, other: usize) {
                    self.0 += other;
                }
            }

            impl fmt::Display for $name {
                fn fmt(&self, f: &mut fmt::Formatter<'_>) -> fmt::Result {
                    write!(f, "{}", self.0)
                }
            }
        )*
    };
}

define_index!(
    CodeId,
    ConstCodeId,
    ConstId,
    GlobalNameId,
    LocalNameId,
    UpvalueNameId
);
