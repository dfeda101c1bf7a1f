//! Text to image and back.

mod programs;

use player::{
    assemble::{CodeTree, ConstantTree, assemble, assemble_tree, encode},
    disassemble::{disassemble, disassemble_tree},
    random::Random,
};
use programs::{answer, random_program};

fn tree(text: &str) -> CodeTree {
    assemble_tree(text).unwrap_or_else(|error| panic!("{error}"))
}

fn error(text: &str) -> String {
    assemble_tree(text).expect_err("the text is wrong").to_string()
}

/// The example of README.md.
const EXAMPLE: &str = "\
code main(2, ...) locals 3 stack 4 {     # 2 parameters, variadic; counts are optional
    captures local 0, upvalue 1          # optional
    globals 3, 7                         # optional: name numbers; others are added at first use
    const null                           # optional: constants in front, in this order
    code f() { LoadConst 1  Return }     # const_codes, numbered in order of appearance
    LoadConst effect e(1)                # constants are added at first use
    RegisterHandler handled
    LoadConst fn f
    Call 0
    LoadGlobal g3
    Return
  handled:                               # a label; a target may be a number too
    Return
}
";

#[test]
fn example() {
    let f = CodeTree { opcodes: vec![(6, 0), (37, 0)], constants: vec![ConstantTree::Int(1)], ..CodeTree::default() };
    let expected = CodeTree {
        params: 2,
        variadic: true,
        locals: 3,
        stack_size: 4,
        opcodes: vec![(6, 1), (49, 6), (6, 2), (36, 0), (4, 0), (37, 0), (37, 0)],
        globals: vec![3, 7],
        captures: vec![(0, 0), (1, 1)],
        constants: vec![
            ConstantTree::Null,
            ConstantTree::UserEffect { params: 1, variadic: false, name: b"e".to_vec() },
            ConstantTree::Function(0),
        ],
        const_codes: vec![f],
    };
    assert_eq!(tree(EXAMPLE), expected);
    assert_eq!(answer(&assemble(EXAMPLE).unwrap()), 0);
}

#[test]
fn constants() {
    let text = r#"code main() {
        const null, true, false, -7, 0x10, -9223372036854775808, float 0x3ff0000000000000
        const "a\n\t\\\"\x41\xff#é", bytes 00fF, bytes "", bytes 3 * 0102, Yield, Error, Panic
        const effect e(1), effect "two words"(0, ...), effect v(...), effect n(), fn 2, record 17 02, null
    }"#;
    let effect =
        |params, variadic, name: &str| ConstantTree::UserEffect { params, variadic, name: name.as_bytes().to_vec() };
    let expected = [
        ConstantTree::Null,
        ConstantTree::Bool(true),
        ConstantTree::Bool(false),
        ConstantTree::Int(-7),
        ConstantTree::Int(16),
        ConstantTree::Int(i64::MIN),
        ConstantTree::Float(0x3ff0_0000_0000_0000),
        ConstantTree::Str(b"a\n\t\\\"A\xff#\xc3\xa9".to_vec()),
        ConstantTree::Bytes(vec![0, 255]),
        ConstantTree::Bytes(vec![]),
        ConstantTree::Bytes(vec![1, 2, 1, 2, 1, 2]),
        ConstantTree::BuiltinEffect(0),
        ConstantTree::BuiltinEffect(1),
        ConstantTree::BuiltinEffect(2),
        effect(1, false, "e"),
        effect(0, true, "two words"),
        effect(0, true, "v"),
        effect(0, false, "n"),
        ConstantTree::Function(2),
        ConstantTree::Record { kind: 17, body: vec![2] },
        ConstantTree::Null,
    ];
    assert_eq!(tree(text).constants, expected);
}

#[test]
fn names_are_found_wherever_they_stand() {
    let text = "code main() {
        const fn late
        LoadConst fn late  LoadConst fn 0  Jump end
        end: Jump 0
        code late() { Return }
    }";
    assert_eq!(tree(text).opcodes, [(6, 0), (6, 0), (40, 3), (40, 0)]);
    assert_eq!(tree(text).constants, [ConstantTree::Function(0)]);
}

#[test]
fn operands_and_repeats() {
    let text = "code main() {
        3 * MarkAddStackSize 4294967295
        0 * Pop
        TypeCheck Int  TypeCheck UserData  TypeCheck 3
        LoadGlobal g9  StoreGlobal g255  LoadGlobal g9  LoadGlobal 7
        2 * LoadConst 5
        again: Not BuildList 2 Jump again Return
    }";
    let marks = [(51, u32::MAX); 3];
    let rest = [
        (30, 2),
        (30, 9),
        (30, 3),
        (4, 0),
        (8, 1),
        (4, 0),
        (4, 7),
        (6, 0),
        (6, 0),
        (18, 0),
        (10, 2),
        (40, 12),
        (37, 0),
    ];
    assert_eq!(tree(text).opcodes, [&marks[..], &rest].concat());
    assert_eq!(tree(text).globals, [9, 255]);
}

#[test]
fn texts_that_break_the_rules() {
    let broken = [
        "code main() { ReturnCall 0 }",
        "code main() { Jump 1 }",
        "code main() { op 0 1 Return }",
        "code main() { op 9 0 Return }",
        "code main() { op 65535 0 Return }",
        "code main() { LoadLocal 0 Return }",
        "code main() { op 6 0 Return }",
        "code main() { TypeCheck 10 Return }",
        "code main() { LoadGlobal g256 Return }",
        "code main() { LoadConst fn 0 Return }",
        "code main() { LoadConst \"\\xff\" Return }",
        "code main() { LoadConst record 17 02 Return }",
        "code main(33) { Return }",
        "code main() locals 257 { Return }",
        "code main() { code f() { captures local 0 Return } Return }",
        "code main() { code f() { captures 2 0 Return } Return }",
        "code main() { }",
    ];
    for text in broken {
        assert_eq!(answer(&encode(&tree(text))), 3, "{text}");
    }
    assert_eq!(answer(&encode(&tree("code main() { const record 15 \"\" Return }"))), 2);
}

#[test]
fn errors_name_line_and_reason() {
    assert_eq!(error(""), "line 1: code expected, not `the end`");
    assert_eq!(error("code main() {\n  Foo\n  Return\n}"), "line 2: no opcode `Foo`");
    assert_eq!(error("code main() {\n  Call\n  Return\n}"), "line 3: `Return` is no operand of this opcode");
    assert_eq!(error("code main() {\n\n  Jump away\n}"), "line 3: no label `away` in this code");
    assert_eq!(error("code main() {\n  LoadConst fn f Return\n}"), "line 2: no code `f` in this code");
    assert_eq!(error("code main() {\n a:\n a:\n}"), "line 3: a second label `a` in one code");
    assert_eq!(error("code main() { code f() {}\n code f() {} }"), "line 2: a second code `f` in one code");
    assert_eq!(error("code main() {\n Return\n"), "line 2: a name expected, not `the end`");
    assert_eq!(error("code main() { Return }\n}"), "line 2: `}` behind the program");
    assert_eq!(error("code main(65536) { Return }"), "line 1: 65536 does not fit in 16 bits");
    assert_eq!(error("code main() { LoadConst \"a }"), "line 1: a text without its closing quote");
    assert_eq!(
        error("code main() { LoadConst bytes 0 }"),
        "line 1: bytes are pairs of hexadecimal digits, or text in quotes"
    );
    assert_eq!(error("code main() { LoadConst nul }"), "line 1: no constant `nul`");
    assert_eq!(error("code main() { TypeCheck int }"), "line 1: `int` is no operand of this opcode");
    assert_eq!(error("code main() { Return ; }"), "line 1: `;` is not understood");
    let left_out = "line 1: opcode `GetLen` is left out; `op 31 OPERAND` writes it all the same";
    assert_eq!(error("code main() { GetLen }"), left_out);
}

#[test]
fn text_of_an_image() {
    let image = assemble(EXAMPLE).unwrap();
    let expected = "\
code main(2, ...) locals 3 stack 4 {
    captures local 0, upvalue 1
    globals 3, 7
    const null
    const effect e(1)
    const fn c1
    code c1() {
        const 1
        LoadConst 1
        Return
    }
    LoadConst effect e(1)
    RegisterHandler L6
    LoadConst fn c1
    Call 0
    LoadGlobal g3
    Return
  L6:
    Return
}
";
    assert_eq!(disassemble(&image), expected);
    assert_eq!(disassemble(&image[1..]), "# refused 2\n");
}

#[test]
fn round_trip_of_random_programs() {
    for seed in 0..5_000 {
        let image = encode(&random_program(&mut Random::new(seed)));
        assert_eq!(answer(&image), 0, "seed {seed}");
        let text = disassemble(&image);
        assert_eq!(assemble(&text).as_deref(), Ok(&image[..]), "seed {seed}\n{text}");
    }
}

#[test]
fn round_trip_of_programs_that_break_the_rules() {
    for seed in 0..5_000 {
        let mut random = Random::new(seed);
        let mut program = random_program(&mut random);
        program.opcodes.extend((0..8).map(|_| (random.below(60) as u16, random.below(6) as u32)));
        program.globals.extend([300, 300]);
        program.captures.push((2, 2));
        let records = [(17, vec![2]), (18, vec![0; 8]), (23, vec![7, 0]), (99, vec![])];
        program.constants.extend(records.map(|(kind, body)| ConstantTree::Record { kind, body }));
        program.constants.extend([ConstantTree::BuiltinEffect(7), ConstantTree::Int(0), ConstantTree::Function(9)]);
        let text = disassemble_tree(&program);
        assert_eq!(assemble(&text).as_deref(), Ok(&encode(&program)[..]), "seed {seed}\n{text}");
    }
}
