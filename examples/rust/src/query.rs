//! Lines of questions, and their answers by the compiled tables. Questions and answers have the forms of the program's `query`.

use crate::ir::instructions::{Controls, ResolvedConstraint};
use crate::ir::{Opcode, Type};
use ciderlater_runtime::settings::detail::{Descriptor, Detail, Template};

/// A question, as a line asks it.
enum Question<'a> {
    /// Does the instruction accept these types?
    Accept {
        name: &'a str,
        controls: Controls,
        results: Vec<Type>,
        values: Vec<Type>,
    },
    /// Which types do its results have?
    Infer { name: &'a str, controls: Controls },
    /// Where does the setting stand?
    Setting { name: &'a str },
}

/// An answer for each line that isn't empty, each on a line of its own.
pub fn answers(input: &str) -> String {
    let lines = input.split('\n').map(|line| line.strip_suffix('\r').unwrap_or(line));
    lines
        .filter(|line| !line.is_empty())
        .map(|line| answer(line) + "\n")
        .collect()
}

fn answer(line: &str) -> String {
    match Question::parse(line) {
        Some(question) => question.answer().unwrap_or_else(|| "unknown".into()),
        None => "bad".into(),
    }
}

impl<'a> Question<'a> {
    /// `None` where the line asks nothing.
    fn parse(line: &'a str) -> Option<Self> {
        let words: Vec<&str> = line.split(' ').collect();
        if words.contains(&"") {
            return None;
        }
        match words[..] {
            ["accept", name, controls, results, values] => Some(Self::Accept {
                name,
                controls: parse_controls(controls)?,
                results: parse_types(results)?,
                values: parse_types(values)?,
            }),
            ["infer", name, controls] => Some(Self::Infer {
                name,
                controls: parse_controls(controls)?,
            }),
            ["setting", name] => Some(Self::Setting { name }),
            _ => None,
        }
    }

    /// `None` where nothing has the name.
    fn answer(&self) -> Option<String> {
        Some(match self {
            Self::Accept {
                name,
                controls,
                results,
                values,
            } => {
                let opcode: Opcode = name.parse().ok()?;
                let accepted = opcode.accepts(*controls, results, values);
                String::from(if accepted { "accept" } else { "refuse" })
            }
            Self::Infer { name, controls } => {
                let opcode = name.parse().ok()?;
                match infer(opcode, *controls) {
                    None => "refuse".into(),
                    Some(results) => format!("results {}", list(&results)),
                }
            }
            Self::Setting { name } => {
                let template = crate::first_group().template();
                describe(template, template.find(name)?)
            }
        })
    }
}

/// `-` for no control, the name of a type for one, and two names with `/` between for two.
fn parse_controls(word: &str) -> Option<Controls> {
    if word == "-" {
        return Some(Controls::default());
    }
    let (first, second) = match word.split_once('/') {
        Some((first, second)) => (first, Some(second.parse().ok()?)),
        None => (word, None),
    };
    Some(Controls {
        first: Some(first.parse().ok()?),
        second,
    })
}

/// `-` for no types, or names with commas between.
fn parse_types(word: &str) -> Option<Vec<Type>> {
    if word == "-" {
        return Some(Vec::new());
    }
    word.split(',').map(|name| name.parse().ok()).collect()
}

/// The name of the type of each result, or `?` where it isn't told. `None` where a result has no type.
fn infer(opcode: Opcode, controls: Controls) -> Option<Vec<String>> {
    let shown = |it: ResolvedConstraint| it.bound().map_or("?".into(), |ty| ty.to_string());
    Some(opcode.infer_results(controls)?.map(shown).collect())
}

/// Where a setting stands and what it is, or what a preset enables.
fn describe(template: &Template, descriptor: &Descriptor) -> String {
    let name = descriptor.name;
    let place = descriptor.offset as usize;
    match descriptor.detail {
        Detail::Bool { bit } => {
            let default = template.defaults[place] >> bit & 1 == 1;
            format!("{name} bool byte {place} bit {bit} default {default}")
        }
        Detail::Num => format!("{name} num byte {place} default {}", template.defaults[place]),
        Detail::Enum { last, enumerators } => {
            let values = template.enums(last, enumerators);
            let default = values[usize::from(template.defaults[place])];
            format!("{name} enum byte {place} default {default} values {}", values.join(","))
        }
        Detail::Preset => {
            let names: Vec<&str> = template.enabled_by(descriptor).map(|it| it.name).collect();
            format!("{name} preset enables {}", list(&names))
        }
    }
}

/// The parts with commas between, or `-` where there are none.
fn list(parts: &[impl AsRef<str>]) -> String {
    if parts.is_empty() {
        return "-".into();
    }
    let parts: Vec<&str> = parts.iter().map(AsRef::as_ref).collect();
    parts.join(",")
}
