//! What is written around the texts: a module for each group of settings, and the trait by which references are mapped.

use crate::Error;
use std::collections::{BTreeMap, HashMap};

/// How the first line of the tables of a group begins. The name of the group and a point come after it.
pub const GROUP: &str = "// Settings group ";

/// The first line of the settings of a group.
const FLAGS: &str = "#[derive(Clone, PartialEq, Hash)]";

/// What comes before the first line that begins so, and then the parts that such a line begins.
pub fn parts<'a>(text: &'a str, first_line: &str) -> (&'a str, Vec<&'a str>) {
    let places = text.match_indices(first_line).map(|(place, _)| place);
    let at_line = |&place: &usize| place == 0 || text.as_bytes()[place - 1] == b'\n';
    let mut places: Vec<usize> = places.filter(at_line).collect();
    let head = &text[..places.first().copied().unwrap_or(text.len())];
    places.push(text.len());
    (head, places.windows(2).map(|it| &text[it[0]..it[1]]).collect())
}

/// A module for each group, of its settings and its tables. Each but the first knows the first by the name `settings`.
pub fn settings(settings: &str, tables: &[&str]) -> Result<String, Error> {
    let (_, flags) = parts(settings, FLAGS);
    if flags.len() != tables.len() {
        return Err(format!(
            "there are settings of {} groups, and tables of {}",
            flags.len(),
            tables.len()
        )
        .into());
    }
    let names: Vec<&str> = tables.iter().map(|it| group_name(it)).collect::<Result<_, _>>()?;
    let mut source = String::new();
    for ((name, flags), tables) in names.iter().zip(flags).zip(tables) {
        let first = match names[0] {
            first if first == *name => String::new(),
            first => format!("use super::{first} as settings;\n"),
        };
        source += &format!(
            "/// The settings of the group `{name}`.
pub mod {name} {{
use super::_runtime::{{Builder, Value, detail, fmt}};
{first}{flags}{tables}/// The tables of the group.
pub fn template() -> &'static detail::Template {{
    &TEMPLATE
}}
}}
"
        );
    }
    Ok(source)
}

/// The name of the group of these tables.
fn group_name(tables: &str) -> Result<&str, Error> {
    let line = tables.lines().next().unwrap_or_default();
    let name = line.strip_prefix(GROUP).and_then(|it| it.strip_suffix('.'));
    name.ok_or_else(|| format!("no group of settings is named by `{line}`").into())
}

/// The trait `InstructionMapper`, with a method for each type of reference that an instruction can hold.
pub fn mapper(instructions: &str) -> String {
    let mut source = String::from(
        "/// What `InstructionData::map` asks for each reference that an instruction holds: another, or the same.
pub trait InstructionMapper {
    /// What takes the place of a value.
    fn map_value(&mut self, value: ir::Value) -> ir::Value {
        value
    }
    /// What takes the place of a list of values.
    fn map_value_list(&mut self, list: ir::ValueList) -> ir::ValueList {
        list
    }
    /// What takes the place of a block.
    fn map_block(&mut self, block: ir::Block) -> ir::Block {
        block
    }
    /// What takes the place of a call of a block.
    fn map_block_call(&mut self, call: ir::BlockCall) -> ir::BlockCall {
        call
    }
",
    );
    for (method, ty) in references(instructions) {
        if !["map_value", "map_value_list", "map_block", "map_block_call"].contains(&method) {
            source += &format!(
                "    /// What takes the place of a reference of the type `{ty}`.
    fn {method}(&mut self, it: {ty}) -> {ty} {{
        it
    }}
"
            );
        }
    }
    source + "}\n"
}

/// The methods by which `InstructionData::map` maps fields, each with the type of the field.
fn references(instructions: &str) -> BTreeMap<&str, &str> {
    // The types of the fields of each format, from the lines of the enum: `    Call {`, `        func: ir::FuncRef,`.
    let (_, data) = instructions
        .split_once("pub enum InstructionData {\n")
        .unwrap_or_default();
    let (fields, methods) = data.split_once("\n}\n").unwrap_or_default();
    let mut types = HashMap::new();
    let mut format = "";
    for line in fields.lines() {
        if let Some(name) = line.strip_prefix("    ").and_then(|it| it.strip_suffix(" {")) {
            format = name;
        } else if let Some((field, ty)) = line.trim_start().split_once(": ") {
            types.insert((format, field), ty.strip_suffix(',').unwrap_or(ty));
        }
    }
    // What maps them, from the lines of the method: `            Self::Call{opcode, args, func} => {`,
    // `                    func: mapper.map_func_ref(func),`.
    let (_, map) = methods.split_once("    pub fn map(").unwrap_or_default();
    let mut found = BTreeMap::new();
    for line in map.lines().map(str::trim_start) {
        if let Some((name, _)) = line.strip_prefix("Self::").and_then(|it| it.split_once('{')) {
            format = name.trim_end();
        } else if let Some((method, field)) = mapped_field(line) {
            found.extend(types.get(&(format, field)).map(|ty| (method, *ty)));
        }
    }
    found
}

/// The method and the field of a line `FIELD: mapper.METHOD(FIELD),`.
fn mapped_field(line: &str) -> Option<(&str, &str)> {
    let (field, call) = line.split_once(": mapper.")?;
    let (method, argument) = call.split_once('(')?;
    (argument.strip_suffix("),") == Some(field)).then_some((method, field))
}

#[cfg(test)]
mod tests {
    use super::*;

    #[test]
    fn a_text_is_cut_where_lines_begin() {
        let text = "a\nb // Settings group x.\n// Settings group y.\nc\n// Settings group z.\n";
        let (head, groups) = parts(text, GROUP);
        assert_eq!(head, "a\nb // Settings group x.\n");
        assert_eq!(groups, ["// Settings group y.\nc\n", "// Settings group z.\n"]);
        assert_eq!(parts("a\n", GROUP), ("a\n", vec![]));
        assert_eq!(group_name(groups[1]).unwrap(), "z");
    }

    #[test]
    fn each_group_but_the_first_knows_the_first() {
        let flags = format!("{FLAGS}\nA\n{FLAGS}\nB\n");
        let source = settings(&flags, &["// Settings group a.\n", "// Settings group b.\n"]).unwrap();
        assert_eq!(source.matches("use super::a as settings;").count(), 1);
        assert!(source.find("pub mod b").unwrap() < source.find("use super::a").unwrap());
        assert_eq!(settings("", &[]).unwrap(), "");
        assert!(settings("", &["// Settings group a.\n"]).is_err());
    }

    #[test]
    fn references_are_found_with_their_types() {
        let instructions = "\
pub enum InstructionFormat {
}
pub enum InstructionData {
    Call {
        opcode: Opcode,
        args: ValueList,
        func: ir::FuncRef,
        number: i64,
    }
    ,
    Other {
        opcode: Opcode,
        func: other::Slot,
    }
    ,
}

impl InstructionData {
    pub fn map(&self, mut mapper: impl crate::ir::instructions::InstructionMapper) -> Self {
        match *self {
            Self::Call{opcode, args, func, number} => {
                Self::Call {
                    opcode,
                    args: mapper.map_value_list(args),
                    func: mapper.map_func_ref(func),
                    number,
                }
            }
            Self::Other{opcode, func} => {
                Self::Other {
                    opcode,
                    func: mapper.map_slot(func),
                }
            }
        }
    }
}
";
        let expected = [
            ("map_func_ref", "ir::FuncRef"),
            ("map_slot", "other::Slot"),
            ("map_value_list", "ValueList"),
        ];
        assert!(references(instructions).into_iter().eq(expected));
        let source = mapper(instructions);
        assert!(source.contains("fn map_func_ref(&mut self, it: ir::FuncRef) -> ir::FuncRef {"));
        assert_eq!(source.matches("fn map_value_list").count(), 1);
        assert!(references("").is_empty());
    }
}
