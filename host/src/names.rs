//! Names of what results and values number.

/// The messages, 1 to 6.
pub(crate) const MESSAGES: [&str; 6] =
    ["CallArguments", "UnOperator", "BinOperator", "MetaUnOperator", "MetaBinOperator", "zero divisor"];

/// The builtin effects.
pub(crate) const BUILTIN_EFFECTS: [&str; 3] = ["Yield", "Error", "Panic"];

/// The types of values.
#[rustfmt::skip]
pub(crate) const TYPES: [&str; 10] =
    ["Null", "Bool", "Int", "Float", "Str", "Bytes", "Table", "Function", "Effect", "UserData"];

#[rustfmt::skip]
const OPCODES: [&str; 52] = [
    "Pop", "Copy", "Swap", "LoadLocal", "LoadGlobal", "LoadUpvalue", "LoadConst", "StoreLocal", "StoreGlobal",
    "BuildTable", "BuildList", "GetAttr", "GetItem", "GetMeta", "SetAttr", "SetItem", "SetMeta",
    "Neg", "Not", "Add", "Sub", "Mul", "Div", "Rem", "Eq", "Ne", "Gt", "Ge", "Lt", "Le", "TypeCheck",
    "GetLen", "Import", "ImportFrom", "ImportGlob", "Iter", "Call", "Return", "ReturnCall", "LoadLocals",
    "Jump", "JumpBackEdge", "Break", "Continue",
    "JumpPopIfNull", "PopJumpIfTrue", "PopJumpIfFalse", "JumpIfTrueOrPop", "JumpIfFalseOrPop",
    "RegisterHandler", "CheckEffect", "MarkAddStackSize",
];

#[rustfmt::skip]
const METAMETHODS: [&str; 24] = [
    "Call", "Iter", "GetAttr", "GetItem", "SetAttr", "SetItem", "Neg", "Add", "Sub", "Mul", "Div", "Rem",
    "Eq", "Ne", "Gt", "Ge", "Lt", "Le", "Len", "Bool", "Int", "Float", "Str", "Repr",
];

/// The name of an opcode; no image has one of a number over 51.
pub fn opcode(number: u32) -> Option<&'static str> {
    OPCODES.get(number as usize).copied()
}

/// The name of an operation that a type may lack.
pub fn metamethod(number: u32) -> Option<&'static str> {
    METAMETHODS.get(number as usize).copied()
}
