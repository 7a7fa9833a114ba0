use ir::{Opcode, Type, types};
use settings::machine::{Flags, builder};

ciderlater_runtime::modules! {
    #[derive(Clone, Copy, Debug, PartialEq, Eq, Hash)]
    pub enum Condition { Equal, Less }
    ciderlater_runtime::entities! { FuncRef; }
}

fn main() -> Result<(), Box<dyn std::error::Error>> {
    for opcode in Opcode::all() {
        println!("{opcode}: {:?}", opcode.format());
    }
    let accepted = Type::all().filter(|&ty| Opcode::Add.accepts(ty, &[ty], &[ty, ty]));
    let names: Vec<_> = accepted.map(|ty| ty.to_string()).collect();
    println!("add accepts {}", names.join(" "));

    let shift: Opcode = "shift".parse()?;
    let results = shift
        .infer_results((types::I64, types::I8))
        .ok_or("no controls of shift")?;
    println!("{shift} gives {:?}", Vec::from_iter(results));

    let mut settings = builder();
    settings.set("byte_order", "big")?;
    settings.enable("careful")?;
    print!("{}", Flags::new(settings));
    Ok(())
}
