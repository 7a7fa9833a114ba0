//! Has the finished program of this repository write the source, or what `CIDERLATER_PROGRAM` or `CIDERLATER_TEXTS` names.

fn main() -> Result<(), ciderlater_build::Error> {
    ciderlater_build::Config::new()
        .program("../../out/ciderlater")
        .generate()
}
