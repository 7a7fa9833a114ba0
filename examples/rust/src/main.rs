//! Answers the lines of standard input by the compiled tables: `compiled_texts < LINES`, or `compiled_texts flags < LINES`.

use compiled_texts::{flags, query};
use std::io::{self, Read, Write};

fn main() -> io::Result<()> {
    let mut input = Vec::new();
    io::stdin().read_to_end(&mut input)?;
    let input = String::from_utf8_lossy(&input);
    let answers = match std::env::args().nth(1).as_deref() {
        Some("flags") => flags::answers(&input),
        _ => query::answers(&input),
    };
    io::stdout().write_all(answers.as_bytes())
}
