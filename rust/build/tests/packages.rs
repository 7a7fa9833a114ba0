//! Packages as those who declare a set of their own write them, built by cargo with warnings denied.
//!
//! They need the program: the one that `CIDERLATER_PROGRAM` names, or the finished one of this repository.

use std::path::{Path, PathBuf};
use std::process::{Command, Output};
use std::{env, fs};

/// The script of every package.
const BUILD: &str = r#"fn main() -> Result<(), ciderlater_build::Error> {
    ciderlater_build::Config::new().declarations("my.isa").generate()
}
"#;

/// A program that shows each opcode with its format.
const LIST: &str = "ciderlater_runtime::modules! {}
fn main() {
    for opcode in ir::Opcode::all() {
        println!(\"{opcode} {:?}\", opcode.format());
    }
}
";

/// The folder of the repository that has both crates.
fn rust() -> &'static Path {
    Path::new(env!("CARGO_MANIFEST_DIR"))
        .parent()
        .expect("the crate lies in a folder")
}

fn program() -> PathBuf {
    let finished = || rust().join("../out/ciderlater");
    let program = env::var_os("CIDERLATER_PROGRAM").map_or_else(finished, PathBuf::from);
    assert!(
        program.is_file(),
        "there is no program {}: ./run makes it",
        program.display()
    );
    program.canonicalize().expect("the program has a path")
}

/// A package of its own, in a folder that is new each time.
struct Package(PathBuf);

impl Package {
    fn new(name: &str, declarations: &str, main: &str) -> Self {
        let folder = Path::new(env!("CARGO_TARGET_TMPDIR")).join(name);
        let _ = fs::remove_dir_all(&folder);
        fs::create_dir_all(folder.join("src")).unwrap();
        let package = Self(folder);
        let rust = rust().display();
        package.write(
            "Cargo.toml",
            &format!(
                "[package]\nname = \"{name}\"\nversion = \"0.0.0\"\nedition = \"2024\"\n\n\
                 [dependencies]\nciderlater-runtime = {{ path = \"{rust}/runtime\" }}\n\n\
                 [build-dependencies]\nciderlater-build = {{ path = \"{rust}/build\" }}\n\n[workspace]\n"
            ),
        );
        package.write("build.rs", BUILD);
        package.write("my.isa", declarations);
        package.write("src/main.rs", main);
        package
    }

    fn write(&self, file: &str, text: &str) {
        fs::write(self.0.join(file), text).unwrap();
    }

    /// What `cargo run` does with these words, and with warnings denied. All packages share a folder of what is compiled.
    fn run(&self, words: &[&str]) -> Output {
        let mut cargo = Command::new(env!("CARGO"));
        cargo.args(["run", "--offline"]).args(words).current_dir(&self.0);
        cargo.env(
            "CARGO_TARGET_DIR",
            Path::new(env!("CARGO_TARGET_TMPDIR")).join("target"),
        );
        cargo
            .env("CIDERLATER_PROGRAM", program())
            .env_remove("CIDERLATER_TEXTS");
        cargo.env("RUSTFLAGS", "-Dwarnings").output().unwrap()
    }

    /// What the program writes, where the package builds without a warning.
    fn shows(&self) -> String {
        let output = self.run(&["--quiet"]);
        let said = String::from_utf8_lossy(&output.stderr);
        assert!(
            output.status.success() && said.is_empty(),
            "{}: {said}",
            self.0.display()
        );
        String::from_utf8(output.stdout).unwrap()
    }
}

const INT: &str = "type Int: ints 8..64\n";

#[test]
fn sets_of_each_shape_build_without_a_warning() {
    let many: String = (1..=300).map(|n| format!("inst many{n}: Nothing()\n")).collect();
    for (name, declarations, shown) in [
        ("values_alone", format!("{INT}format Pair: value, value\ninst add: Pair(x: Int, y: Int) -> a: Int\n"), "add Pair\n"),
        ("one_type_each", "format One: value\ninst load: One(p: i64) -> a: f32\n".into(), "load One\n"),
        ("wide_type", "format One: value\ninst wide: One(p: f64x16) -> a: i8x256xN\n".into(), "wide One\n"),
        ("nothing_stored", "format Nothing: none\ninst trap: Nothing() [can_trap]\n".into(), "trap Nothing\n"),
        ("numbers_alone", format!("{INT}kind n: imm \"u8\"\nformat Number: n\ninst number: Number(n: n) -> a: Int\n"), "number Number\n"),
        ("varargs_alone", "format Many: varargs\ninst ret: Many(v: varargs) [returns]\n".into(), "ret Many\n"),
        ("blocks_alone", "format Jump: block\ninst jump: Jump(to: block) [branches]\n".into(), "jump Jump\n"),
        ("raw_block", "format Raw: raw_block\ninst take: Raw(block: raw_block)\n".into(), "take Raw\n"),
        (
            "with_numbers_for_values",
            format!("{INT}format Pair: value, value\ninst add: Pair(x: Int, y: Int) -> a: Int [imm_method]\n"),
            "add Pair\n",
        ),
        (
            "an_imm64",
            format!("{INT}kind n: imm \"ir::immediates::Imm64\"\nformat N: n\ninst number: N(n: n) -> a: Int\n"),
            "number N\n",
        ),
        (
            "three_groups",
            "format Nothing: none\ninst trap: Nothing()\ngroup detail\nbool on = true\ngroup fmt\nenum size(a, b)\ngroup core\n".into(),
            "trap Nothing\n",
        ),
    ] {
        assert_eq!(Package::new(name, &declarations, LIST).shows(), shown, "{name}");
    }
    let shown = Package::new("many", &format!("format Nothing: none\n{many}"), LIST).shows();
    assert_eq!(
        (shown.lines().count(), shown.lines().last()),
        (300, Some("many300 Nothing"))
    );
}

#[test]
fn instructions_are_built_and_mapped() {
    let declarations = "\
type Int: ints 8..64
type Amount: like Int
kind func: entity \"ir::FuncRef\"
kind cond: imm_enum(eq = Equal) \"Condition\"
format Pair: value, value
format Test: value, cond
format Call: func, varargs
inst shift: Pair(x: Int, n: Amount) -> a: Int, left: Amount [second Amount]
inst test: Test(x: Int, cond: cond) -> a: i8
inst call: Call(f: func, args: varargs) -> results: varargs
";
    let main = "\
use ir::builder::{Appender, InstBuilder};
use ir::instructions::InstructionMapper;
use ir::{DataFlowGraph, FuncRef, InstructionData, types};

#[derive(Clone, Copy, Debug, PartialEq, Eq, Hash)]
pub enum Condition {
    Equal,
}

ciderlater_runtime::modules! {
    pub use crate::Condition;
    ciderlater_runtime::entities! { FuncRef; }
}

struct Next;

impl InstructionMapper for Next {
    fn map_func_ref(&mut self, it: FuncRef) -> FuncRef {
        FuncRef::from_u32(it.as_u32() + 1)
    }
}

fn main() {
    let mut dfg = DataFlowGraph::default();
    let (x, n) = (dfg.make_value(types::I64), dfg.make_value(types::I8));
    let (a, left) = Appender(&mut dfg).shift(x, n);
    let truth = Appender(&mut dfg).test(x, Condition::Equal);
    println!(\"{} {} {}\", dfg.value_type(a), dfg.value_type(left), dfg.value_type(truth));
    let call = Appender(&mut dfg).call(FuncRef::from_u32(7), &[a, left]);
    let data = dfg.inst_data(call).map(Next);
    let InstructionData::Call { func, args, .. } = data else { unreachable!() };
    println!(\"{func:?} {}\", args.len(&dfg.value_lists));
}
";
    assert_eq!(
        Package::new("built", declarations, main).shows(),
        "i64 i8 i8\nFuncRef(8) 2\n"
    );
}

#[test]
fn a_crate_over_core_alone_brings_lists_and_a_graph() {
    let declarations = format!("{INT}format Pair: value, value\ninst add: Pair(x: Int, y: Int) -> a: Int\n");
    let lib = "\
#![no_std]

ciderlater_runtime::modules! {
    pub type ValueListPool = ();

    #[derive(Clone, Copy, Debug, PartialEq, Eq, Hash)]
    pub enum ValueList {}

    #[derive(Clone, Copy, Debug, PartialEq, Eq, Hash)]
    pub enum BlockCall {}

    pub enum BlockArg {}

    /// The type of all values, and what was built last.
    pub struct DataFlowGraph(pub Type, pub Option<InstructionData>);

    impl DataFlowGraph {
        pub fn value_type(&self, _value: Value) -> Type {
            self.0
        }

        pub fn first_result(&self, _inst: Inst) -> Value {
            Value::from_u32(9)
        }

        pub fn display_inst(&self, _inst: Inst) -> Opcode {
            Opcode::Add
        }
    }
}

pub struct Keeper<'f>(pub &'f mut ir::DataFlowGraph);

impl<'f> ir::builder::InstBuilderBase<'f> for Keeper<'f> {
    fn data_flow_graph(&self) -> &ir::DataFlowGraph {
        self.0
    }

    fn data_flow_graph_mut(&mut self) -> &mut ir::DataFlowGraph {
        self.0
    }

    fn build(self, data: ir::InstructionData, ctrl_typevar: ir::Type) -> (ir::Inst, &'f mut ir::DataFlowGraph) {
        assert_eq!(ctrl_typevar, self.0.0);
        self.0.1 = Some(data);
        (ir::Inst::from_u32(0), self.0)
    }

    fn build_imm_const(&mut self, _ty: ir::Type, _imm: ir::immediates::Imm64, _signed: bool) -> ir::Value {
        ir::Value::from_u32(0)
    }
}
";
    let main = "\
use core_alone::Keeper;
use core_alone::ir::builder::InstBuilder;
use core_alone::ir::{DataFlowGraph, Value, types};

fn main() {
    let mut dfg = DataFlowGraph(types::I32, None);
    let [x, y] = [1, 2].map(Value::from_u32);
    println!(\"{:?} {:?}\", Keeper(&mut dfg).add(x, y), dfg.1.unwrap().arguments(&()));
}
";
    let package = Package::new("core_alone", &declarations, main);
    package.write("src/lib.rs", lib);
    let manifest = fs::read_to_string(package.0.join("Cargo.toml")).unwrap();
    package.write(
        "Cargo.toml",
        &manifest.replace("/runtime\" }", "/runtime\", default-features = false }"),
    );
    assert_eq!(package.shows(), "Value(9) [Value(1), Value(2)]\n");
}

#[test]
fn a_file_of_settings_alone_needs_one_macro() {
    let declarations = "group a\nbool on = true\nnum size = 5\ngroup b\nenum order(little, big)\npreset none()\n";
    let main = "\
use settings::{a, b};

ciderlater_runtime::settings! {}

fn main() {
    let first = a::Flags::new(a::builder());
    let mut builder = b::builder();
    builder.set(\"order\", \"big\").unwrap();
    print!(\"{first}{}\", b::Flags::new(&first, &builder));
}
";
    let shown = Package::new("settings_alone", declarations, main).shows();
    assert_eq!(shown, "[a]\nsize = 5\non = true\n[b]\norder = \"big\"\n");
}

#[test]
fn a_change_of_the_declarations_is_noticed() {
    let first = "format Nothing: none\ninst trap: Nothing()\n";
    let package = Package::new("changed", first, LIST);
    assert_eq!(package.shows(), "trap Nothing\n");
    package.write("my.isa", &first.replace("trap", "stop"));
    assert_eq!(package.shows(), "stop Nothing\n");
}

#[test]
fn what_the_program_says_is_told() {
    let package = Package::new(
        "refused",
        "format Pair: value, value\ninst add: Pair(x: Itn, y: i8) -> a: i8\n",
        LIST,
    );
    let told = |what: &str| {
        let output = package.run(&[]);
        let said = String::from_utf8_lossy(&output.stderr);
        assert!(!output.status.success() && said.contains(what), "{said}");
    };
    told("Error: my.isa:2: nothing is named `Itn` above\n");
    package.write("my.isa", "format Nothing: none\ninst loop: Nothing()\n");
    told("my.isa:2: its name is a keyword of Rust\n");
}
