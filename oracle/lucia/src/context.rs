//! Carried over: the type `Context` and `empty`. Left out: libraries, compiling and `execute`.

use crate::objects::Table;

#[derive(Debug, Clone)]
pub struct Context {
    /// Global variables.
    pub globals: Table,
    /// Builtin variables.
    pub builtins: Table,
    /// Importable libraries.
    pub libs: Table,
}

impl Context {
    pub fn empty() -> Self {
        Self {
            globals: Table::new(),
            builtins: Table::new(),
            libs: Table::new(),
        }
    }
}
