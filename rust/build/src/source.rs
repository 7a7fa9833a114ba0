//! Where the texts come from: a program, or a folder.

use crate::{Error, PROGRAM};
use std::path::{Path, PathBuf};
use std::process::{Command, Output};
use std::{env, fs};

/// The name of the program.
const NAME: &str = "ciderlater";

/// Where the texts come from.
pub enum Source {
    Program(Program),
    /// A folder with a file for each text.
    Folder(PathBuf),
}

/// A program that writes a text where its word is the text's name, over these files of declarations.
pub struct Program {
    pub path: PathBuf,
    pub declarations: Vec<PathBuf>,
}

/// The program on the path.
pub fn on_the_path() -> Result<PathBuf, Error> {
    println!("cargo::rerun-if-env-changed=PATH");
    let file = format!("{NAME}{}", env::consts::EXE_SUFFIX);
    let folders = env::var_os("PATH").unwrap_or_default();
    let found = env::split_paths(&folders)
        .map(|folder| folder.join(&file))
        .find(|path| path.is_file());
    found.ok_or_else(|| format!("there is no `{NAME}` on the path: put it there, or name it by {PROGRAM}").into())
}

impl Source {
    /// Tells cargo what has to change before the texts are written again.
    pub fn tell_cargo(&self) {
        let changed = |path: &Path| println!("cargo::rerun-if-changed={}", path.display());
        match self {
            Source::Program(program) => {
                changed(&program.path);
                program.declarations.iter().for_each(|file| changed(file));
            }
            Source::Folder(folder) => changed(folder),
        }
    }

    /// Tells cargo of names that rustc refuses, with their lines. Declarations with a fault are refused here.
    pub fn warn_of_names(&self) -> Result<(), Error> {
        match self {
            Source::Program(program) if !program.declarations.is_empty() => {
                let said = program.run("check")?.stderr;
                for line in String::from_utf8_lossy(&said).lines() {
                    println!("cargo::warning={}", line.replacen(": warning: ", ": ", 1));
                }
                Ok(())
            }
            _ => Ok(()),
        }
    }

    /// The text of this name.
    pub fn text(&self, name: &str) -> Result<String, Error> {
        match self {
            Source::Folder(folder) => {
                let path = folder.join(name);
                fs::read_to_string(&path).map_err(|e| format!("{}: {e}", path.display()).into())
            }
            Source::Program(program) => {
                let text = String::from_utf8(program.run(name)?.stdout);
                text.map_err(|_| format!("{} {name} writes what isn't UTF-8", program.path.display()).into())
            }
        }
    }
}

impl Program {
    /// What the program says to this word. Where it fails, the error is what it says of that.
    fn run(&self, word: &str) -> Result<Output, Error> {
        let shown = self.path.display();
        let mut command = Command::new(&self.path);
        for file in &self.declarations {
            command.arg("-d").arg(file);
        }
        let output = command.arg(word).output();
        let output = output.map_err(|e| format!("{shown}: {e}; {PROGRAM} names the program to call"))?;
        if output.status.success() {
            return Ok(output);
        }
        let said = String::from_utf8_lossy(&output.stderr);
        match said.trim_end() {
            "" => Err(format!("{shown} {word}: {}", output.status).into()),
            said => Err(said.into()),
        }
    }
}
