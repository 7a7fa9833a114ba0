//! For build scripts: has Ciderlater write the Rust source of an instruction set.
//!
//! ```no_run
//! fn main() -> Result<(), ciderlater_build::Error> {
//!     ciderlater_build::Config::new().declarations("my.isa").generate()
//! }
//! ```
//!
//! A macro of the crate `ciderlater-runtime` includes what is written. Cargo runs the script again when the file of declarations
//! or the program changes. Where the program refuses the file, the build fails with what the program says, as
//! `my.isa:22: half_width cannot be derived from Int`.
//!
//! The program is the one that the variable `CIDERLATER_PROGRAM` names, or else `ciderlater` on the path. Where the variable
//! `CIDERLATER_TEXTS` is set, no program is called: the texts come from the folder that it names.

#![forbid(unsafe_code)]
#![warn(missing_docs)]

mod glue;
mod source;

use source::{Program, Source};
use std::path::{Path, PathBuf};
use std::{env, fmt, fs};

/// The variable that names the program.
const PROGRAM: &str = "CIDERLATER_PROGRAM";

/// The variable that names a folder with the texts.
const TEXTS: &str = "CIDERLATER_TEXTS";

/// What is written, and from what.
#[derive(Clone, Debug, Default)]
pub struct Config {
    declarations: Vec<PathBuf>,
    program: Option<PathBuf>,
    texts: Option<PathBuf>,
    out_dir: Option<PathBuf>,
}

impl Config {
    /// The source of Cranelift's shared instructions and settings, which the program writes where no file is named.
    pub fn new() -> Self {
        Self::default()
    }

    /// Names a file of declarations. Several are handed to the program in this order, each with a `-d` of its own. A path that
    /// isn't absolute begins at the folder of the package.
    pub fn declarations(&mut self, file: impl Into<PathBuf>) -> &mut Self {
        self.declarations.push(file.into());
        self
    }

    /// Names the program, where the variable `CIDERLATER_PROGRAM` doesn't.
    pub fn program(&mut self, path: impl Into<PathBuf>) -> &mut Self {
        self.program = Some(path.into());
        self
    }

    /// Names a folder with the texts, in files `types`, `settings`, `instructions`, `builder` and `tables`. Then no program is
    /// called, and the files of declarations aren't read. The variable `CIDERLATER_TEXTS` goes before it.
    pub fn texts(&mut self, folder: impl Into<PathBuf>) -> &mut Self {
        self.texts = Some(folder.into());
        self
    }

    /// Names the folder in which the source is written: `OUT_DIR`, where none is named.
    pub fn out_dir(&mut self, folder: impl Into<PathBuf>) -> &mut Self {
        self.out_dir = Some(folder.into());
        self
    }

    /// Writes the source, and tells cargo when to do so again. Names that rustc refuses are told as warnings of cargo, with their
    /// lines.
    ///
    /// The files are `types.rs`, `instructions.rs` and `builder.rs`, as they are written; `opcode_tables.rs`, the part of the
    /// tables before the first group; `mapper.rs`, the trait `InstructionMapper`; and `settings.rs`, with a module for each group.
    ///
    /// # Errors
    ///
    /// If there is no program, or it refuses the declarations; a text can't be read, or none of this form is found; or a file
    /// can't be written.
    pub fn generate(&self) -> Result<(), Error> {
        let out = match &self.out_dir {
            Some(folder) => folder.clone(),
            None => env::var_os("OUT_DIR")
                .ok_or("cargo sets OUT_DIR for a build script, and here it isn't set")?
                .into(),
        };
        let source = self.source()?;
        source.tell_cargo();
        source.warn_of_names()?;
        let instructions = source.text("instructions")?;
        let tables = source.text("tables")?;
        let (opcodes, groups) = glue::parts(&tables, glue::GROUP);
        write(&out, "types.rs", &source.text("types")?)?;
        write(&out, "instructions.rs", &instructions)?;
        write(&out, "mapper.rs", &glue::mapper(&instructions))?;
        write(&out, "builder.rs", &source.text("builder")?)?;
        write(&out, "opcode_tables.rs", opcodes)?;
        write(
            &out,
            "settings.rs",
            &glue::settings(&source.text("settings")?, &groups)?,
        )
    }

    /// Where the texts come from.
    fn source(&self) -> Result<Source, Error> {
        let named = |variable| env::var_os(variable).map(PathBuf::from);
        println!("cargo::rerun-if-env-changed={TEXTS}");
        if let Some(folder) = named(TEXTS).or_else(|| self.texts.clone()) {
            return Ok(Source::Folder(folder));
        }
        println!("cargo::rerun-if-env-changed={PROGRAM}");
        let path = match named(PROGRAM).or_else(|| self.program.clone()) {
            Some(path) => path,
            None => source::on_the_path()?,
        };
        Ok(Source::Program(Program {
            path,
            declarations: self.declarations.clone(),
        }))
    }
}

fn write(folder: &Path, name: &str, text: &str) -> Result<(), Error> {
    let path = folder.join(name);
    fs::write(&path, text).map_err(|e| format!("{}: {e}", path.display()).into())
}

/// Why nothing was written, or not all, in lines for whoever builds.
///
/// `Debug` shows it as `Display` does, since that is what a build script shows of the error that its `main` returns.
pub struct Error(String);

impl From<String> for Error {
    fn from(why: String) -> Self {
        Self(why)
    }
}

impl From<&str> for Error {
    fn from(why: &str) -> Self {
        Self(why.into())
    }
}

impl fmt::Display for Error {
    fn fmt(&self, f: &mut fmt::Formatter) -> fmt::Result {
        f.write_str(&self.0)
    }
}

impl fmt::Debug for Error {
    fn fmt(&self, f: &mut fmt::Formatter) -> fmt::Result {
        fmt::Display::fmt(self, f)
    }
}

impl std::error::Error for Error {}
