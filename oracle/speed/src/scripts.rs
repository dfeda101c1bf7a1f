//! The scripts, in the text that `player` assembles, and two of them in Lua.

/// One script: what a turn is, and how many turns a run of it takes.
pub struct Script {
    pub name: String,
    pub image: String,
    pub turns: usize,
    /// The run that is timed begins when so many frames stand for the first time.
    pub frames: usize,
    /// How many cells a turn captures and puts back.
    pub captured: Option<usize>,
    /// Its answers, if it calls the host.
    pub host: Option<Host>,
    /// The same as a function `work(n)` of Lua.
    pub lua: Option<&'static str>,
}

/// How much of the store a script that calls the host has used before.
#[derive(Clone, Copy)]
pub enum Host {
    SmallStore,
    FullStore,
}

pub fn scripts() -> Vec<Script> {
    let mut scripts = vec![arithmetic(), call()];
    scripts.extend([2, 18, 200].map(perform));
    scripts.extend([resume(), closures()]);
    if cfg!(feature = "host") {
        scripts
            .extend([("small", Host::SmallStore), ("full", Host::FullStore)].map(|(size, host)| callback(size, host)));
    }
    scripts
}

fn script(name: &str, turns: usize, image: String) -> Script {
    Script { name: name.into(), image, turns, frames: 1, captured: None, host: None, lua: None }
}

/// A code whose local 0 counts the turns; `turn` may use locals from 1 on and leaves an empty stack.
fn looped(codes: &str, before: &str, turns: usize, turn: &str, after: &str) -> String {
    format!(
        "code main() locals 8 stack 8 {{
            {codes}
            {before}
            LoadConst 0  StoreLocal 0
          next:
            LoadLocal 0  LoadConst {turns}  Lt  PopJumpIfFalse end
            {turn}
            LoadLocal 0  LoadConst 1  Add  StoreLocal 0
            JumpBackEdge next
          end:
            {after}
        }}"
    )
}

/// Fifteen opcodes, one of them a jump.
fn arithmetic() -> Script {
    let turns = 10_000;
    let turn = "LoadLocal 1  LoadConst 3  Mul  LoadLocal 0  Add  StoreLocal 1";
    let image = looped("", "LoadConst 0  StoreLocal 1", turns, turn, "LoadLocal 1  Return");
    let lua = "function work(n) local i, s = 0, 0; while i < n do s = s * 3 + i; i = i + 1 end; return s end";
    Script { lua: Some(lua), ..script("arithmetic: 15 opcodes", turns, image) }
}

/// The call of a closure with two parameters, which go into locals as the compiler has it.
fn call() -> Script {
    let turns = 10_000;
    let add = "code add(2) locals 2 stack 2 { StoreLocal 1  StoreLocal 0  LoadLocal 0  LoadLocal 1  Add  Return }";
    let before = "LoadConst fn add  StoreLocal 2  LoadConst 0  StoreLocal 1";
    let turn = "LoadLocal 2  LoadLocal 1  LoadLocal 0  Call 2  StoreLocal 1";
    let image = looped(add, before, turns, turn, "LoadLocal 1  Return");
    let lua = "function work(n)
            local function add(a, b) return a + b end
            local i, s = 0, 0; while i < n do s = add(s, i); i = i + 1 end; return s
        end";
    Script { lua: Some(lua), ..script("call and return: 20 opcodes", turns, image) }
}

/// An effect handled so many frames down, which is resumed at once. It goes on until the store is nearly full, then an effect that nothing handles ends
/// the run, so that no frame returns in it.
fn perform(down: usize) -> Script {
    // A continuation costs 1 cell, and each of its frames 6 and 4 locals.
    let captured = 1 + down * 10;
    let turns = (65_000 / captured).min(2_000);
    let image = format!(
        "code main() locals 2 stack 8 {{
            code deeper(2) locals 4 stack 4 {{
                StoreLocal 1  StoreLocal 0
                LoadLocal 1  LoadConst {down}  Eq  PopJumpIfTrue there
                LoadLocal 0  LoadLocal 0  LoadLocal 1  LoadConst 1  Add  Call 2
                Return
              there:
                LoadConst 0  StoreLocal 2
              next:
                LoadLocal 2  LoadConst {turns}  Lt  PopJumpIfFalse end
                LoadConst effect cost(1)  LoadLocal 2  Call 1  StoreLocal 3
                LoadLocal 2  LoadConst 1  Add  StoreLocal 2
                JumpBackEdge next
              end:
                LoadConst effect over()  Call 0
                Return
            }}
            LoadConst effect cost(1)  RegisterHandler priced
            LoadConst fn deeper  StoreLocal 0
            LoadLocal 0  LoadLocal 0  LoadConst 1  Call 2
            Return
          priced:
            Pop  LoadConst 10  Mul
            LoadConst effect cost(1)  RegisterHandler priced
            Call 1
            Return
        }}"
    );
    Script {
        frames: down + 1,
        captured: Some(captured),
        ..script(&format!("perform {down} frames down, resume"), turns, image)
    }
}

/// A search of 6 frames, captured once, that goes to its end for each of 100,000 values.
fn resume() -> Script {
    let turns = 100_000;
    let search = "code search(2) locals 4 stack 4 {
            StoreLocal 1  StoreLocal 0
            LoadLocal 1  LoadConst 6  Eq  PopJumpIfTrue there
            LoadLocal 0  LoadLocal 0  LoadLocal 1  LoadConst 1  Add  Call 2
            LoadConst 1  Add
            Return
          there:
            LoadConst effect layer(1)  LoadConst 1  Call 1
            Return
        }";
    let before = "LoadConst effect layer(1)  RegisterHandler asked
            LoadConst fn search  StoreLocal 2
            LoadLocal 2  LoadLocal 2  LoadConst 1  Call 2
            Return
          asked:
            Pop  Pop  StoreLocal 2
            LoadConst 0  StoreLocal 1";
    let turn = "LoadLocal 2  LoadLocal 0  Call 1  LoadLocal 1  Add  StoreLocal 1";
    let image = looped(search, before, turns, turn, "LoadLocal 1  Return");
    script("one search of 6 frames resumed, and it returns", turns, image)
}

/// A closure of two captures is made and called with three arguments, of which two go into a list; it gives a list of three.
fn closures() -> Script {
    let turns = 6_000;
    let code = "code pair(1, ...) locals 2 stack 4 {
            captures local 0, local 1
            StoreLocal 1  StoreLocal 0
            LoadUpvalue 0  LoadUpvalue 1  Add  LoadLocal 0  LoadLocal 1  BuildList 3
            Return
        }";
    let before = "LoadConst 0  StoreLocal 1";
    let turn = "LoadConst fn pair  LoadLocal 0  LoadConst 2  LoadConst 3  Call 3  StoreLocal 2";
    let image = looped(code, before, turns, turn, "LoadLocal 1  Return");
    script("a closure, a variadic call, two lists", turns, image)
}

/// A callback of the host is called with one value and returns one.
fn callback(size: &str, host: Host) -> Script {
    let turns = 1_000;
    let turn = "LoadGlobal g0  LoadLocal 0  Call 1  LoadLocal 1  Add  StoreLocal 1";
    let image = looped("", "LoadConst 0  StoreLocal 1", turns, turn, "LoadLocal 1  Return");
    Script { host: Some(host), ..script(&format!("a host callback, {size} store"), turns, image) }
}
