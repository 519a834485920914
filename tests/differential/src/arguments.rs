//! The arguments of the program.

pub struct Arguments {
    pub calls: u64,
    pub seed: u64,
    pub threads: u64,
    /// One case alone.
    pub case: Option<u64>,
}

const USAGE: &str = "arguments: --calls N, --seed S, --threads T, --case K";

impl Arguments {
    pub fn parse(mut given: impl Iterator<Item = String>) -> Result<Arguments, String> {
        let mut arguments = Arguments { calls: 4_000_000, seed: 1, threads: 2, case: None };
        while let Some(name) = given.next() {
            let value = given.next().and_then(|text| text.parse().ok());
            let value = value.ok_or(format!("{name} takes a number; {USAGE}"))?;
            match name.as_str() {
                "--calls" => arguments.calls = value,
                "--seed" => arguments.seed = value,
                "--threads" => arguments.threads = value.max(1),
                "--case" => arguments.case = Some(value),
                _ => return Err(USAGE.to_string()),
            }
        }
        Ok(arguments)
    }
}
