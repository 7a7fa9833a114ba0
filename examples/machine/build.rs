fn main() -> Result<(), ciderlater_build::Error> {
    ciderlater_build::Config::new().declarations("../twelve.isa").generate()
}
