//! Random programs from templates that keep the stack in balance, with a little noise.

use super::coder::{ANY, Coder, RESUME};
use crate::{
    opcode::*,
    random::Random,
    tree::{CodeTree, ConstantTree},
};

/// Name numbers of globals by use: functions are 0 to 5, level by level.
pub(super) const FUNCTIONS: usize = 6;
/// Where programs keep continuations.
pub(super) const KEPT: [u16; 2] = [6, 7];
/// Where programs keep other values.
pub(super) const SCRATCH: [u16; 2] = [8, 9];
/// Where the host puts callbacks and other values.
pub(super) const HOST: [u16; 3] = [10, 11, 12];

/// Parameter count and variadic mark.
pub(super) type Params = (u16, bool);

/// What all codes of a program share.
pub(super) struct Plan {
    pub(super) effects: Vec<ConstantTree>,
    pub(super) functions: Vec<Params>,
}

pub(super) fn program(random: &mut Random) -> CodeTree {
    match random.below(40) {
        0..=1 => deep(random),
        2..=3 => many_handlers(random),
        _ => general(random),
    }
}

pub(super) fn user_effect(name: &str, params: u16, variadic: bool) -> ConstantTree {
    ConstantTree::UserEffect { params, variadic, name: name.into() }
}

/// A few effects that all codes of a program perform and handle.
fn effects(random: &mut Random) -> Vec<ConstantTree> {
    let known = [
        user_effect("a", 0, false),
        user_effect("a", 1, false),
        user_effect("b", 1, false),
        user_effect("b", 1, true),
        user_effect("v", 0, true),
        user_effect("c", 2, false),
        user_effect("", 0, false),
        ConstantTree::BuiltinEffect(0),
        ConstantTree::BuiltinEffect(1),
        ConstantTree::BuiltinEffect(2),
    ];
    let mut effects: Vec<ConstantTree> = (0..1 + random.below(4)).map(|_| random.pick(&known).clone()).collect();
    effects.push(ConstantTree::BuiltinEffect(1));
    effects
}

/// Parameter count and variadic mark of an effect constant.
pub(super) fn effect_params(effect: &ConstantTree) -> Params {
    match effect {
        ConstantTree::UserEffect { params, variadic, .. } => (*params, *variadic),
        _ => (1, false),
    }
}

fn general(random: &mut Random) -> CodeTree {
    let count = 1 + random.below(FUNCTIONS);
    let functions = (0..count).map(|_| (*random.pick(&[0, 0, 1, 1, 2]), random.chance(1, 6))).collect();
    let plan = Plan { functions, effects: effects(random) };
    let mut main = Coder::new(random, &plan, 0, (0, false));
    main.constant();
    main.op(STORE_LOCAL, ANY);
    for level in 0..plan.functions.len() {
        let captures = main.captures();
        let mut function = Coder::new(main.random, &plan, level + 1, plan.functions[level]);
        function.tree.captures = captures;
        function.body(3);
        let index = main.tree.const_codes.len() as u16;
        main.tree.const_codes.push(function.tree);
        if main.random.chance(19, 20) {
            main.load(ConstantTree::Function(index));
            main.store_global(level as u16);
        }
    }
    main.body(3);
    main.tree
}

/// A function that calls itself to a depth near 256 frames, does something there, and handlers around it in the outermost code.
fn deep(random: &mut Random) -> CodeTree {
    let plan = Plan { effects: effects(random), functions: vec![(1, false)] };
    let mut function = Coder::new(random, &plan, 1, (1, false));
    function.call_itself();
    let (function, random) = (function.tree, function.random);
    let mut main = Coder::new(random, &plan, 0, (0, false));
    main.tree.const_codes.push(function);
    main.load(ConstantTree::Function(0));
    main.store_global(0);
    let count = 250 + main.random.below(9) as i64;
    main.handled(2, &mut |main| {
        main.load_global(0);
        main.load(ConstantTree::Int(count));
        main.op(CALL, 1);
    });
    main.op(RETURN, 0);
    main.tree
}

/// Registers about 16 different effects, some of them twice, around a call that performs one of them.
fn many_handlers(random: &mut Random) -> CodeTree {
    let names = [14, 15, 16, 16, 16, 17, 18][random.below(7)];
    let effects: Vec<ConstantTree> = (0..names).map(|name| user_effect(&format!("x{name}"), 0, false)).collect();
    let plan = Plan { functions: vec![(0, false)], effects };
    let mut function = Coder::new(random, &plan, 1, (0, false));
    function.body(2);
    let (function, random) = (function.tree, function.random);
    let mut main = Coder::new(random, &plan, 0, (0, false));
    main.tree.const_codes.push(function);
    let mut targets = Vec::new();
    for effect in &plan.effects {
        for _ in 0..1 + main.random.below(8) / 7 {
            main.load(effect.clone());
            targets.push(main.jump(REGISTER_HANDLER));
        }
    }
    main.load(ConstantTree::Function(0));
    main.op(CALL, 0);
    main.op(RETURN, 0);
    targets.into_iter().for_each(|target| main.land(target));
    main.op(POP, 0);
    main.op(STORE_LOCAL, RESUME);
    main.use_continuation(2, None);
    main.op(RETURN, 0);
    main.tree
}
