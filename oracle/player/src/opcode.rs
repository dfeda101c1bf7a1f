//! Numbers of the opcodes, in the enum's order.

use crate::image::OPCODE_NAMES;

macro_rules! opcodes {
    ($($name:ident = $number:literal $text:literal,)*) => {
        $(pub const $name: u16 = $number;)*

        /// Each number with its name in the enum.
        #[cfg(test)]
        const ALL: &[(u16, &str)] = &[$(($number, $text),)*];
    };
}

opcodes! {
    POP = 0 "Pop",
    COPY = 1 "Copy",
    SWAP = 2 "Swap",
    LOAD_LOCAL = 3 "LoadLocal",
    LOAD_GLOBAL = 4 "LoadGlobal",
    LOAD_UPVALUE = 5 "LoadUpvalue",
    LOAD_CONST = 6 "LoadConst",
    STORE_LOCAL = 7 "StoreLocal",
    STORE_GLOBAL = 8 "StoreGlobal",
    BUILD_LIST = 10 "BuildList",
    NEG = 17 "Neg",
    NOT = 18 "Not",
    ADD = 19 "Add",
    SUB = 20 "Sub",
    MUL = 21 "Mul",
    DIV = 22 "Div",
    REM = 23 "Rem",
    EQ = 24 "Eq",
    NE = 25 "Ne",
    GT = 26 "Gt",
    GE = 27 "Ge",
    LT = 28 "Lt",
    LE = 29 "Le",
    TYPE_CHECK = 30 "TypeCheck",
    CALL = 36 "Call",
    RETURN = 37 "Return",
    RETURN_CALL = 38 "ReturnCall",
    JUMP = 40 "Jump",
    JUMP_BACK_EDGE = 41 "JumpBackEdge",
    BREAK = 42 "Break",
    CONTINUE = 43 "Continue",
    JUMP_POP_IF_NULL = 44 "JumpPopIfNull",
    POP_JUMP_IF_TRUE = 45 "PopJumpIfTrue",
    POP_JUMP_IF_FALSE = 46 "PopJumpIfFalse",
    JUMP_IF_TRUE_OR_POP = 47 "JumpIfTrueOrPop",
    JUMP_IF_FALSE_OR_POP = 48 "JumpIfFalseOrPop",
    REGISTER_HANDLER = 49 "RegisterHandler",
    CHECK_EFFECT = 50 "CheckEffect",
    MARK_ADD_STACK_SIZE = 51 "MarkAddStackSize",
}

/// The opcode's name, or `?` for a number over 51.
pub fn name(number: u16) -> &'static str {
    OPCODE_NAMES.get(usize::from(number)).unwrap_or(&"?")
}

#[cfg(test)]
mod tests {
    use super::*;

    #[test]
    fn the_numbers_are_those_of_the_names() {
        assert_eq!(ALL.len(), 39);
        assert!(ALL.iter().all(|&(number, text)| name(number) == text));
    }
}
