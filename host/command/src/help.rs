//! The command's help. `./st9` prints the same files where no binary is there yet.

pub const HINT: &str = "`st9 help` says how it is used";

pub const USAGE: &str = include_str!("help/usage.txt");

pub fn topic(name: &str) -> Option<&'static str> {
    match name {
        "scenario" => Some(include_str!("help/scenario.txt")),
        "expect" => Some(include_str!("help/expect.txt")),
        "json" => Some(include_str!("help/json.txt")),
        "run" | "test" | "wait" | "show" | "help" => Some(USAGE),
        _ => None,
    }
}

pub fn version() -> String {
    format!("st9 {}", env!("CARGO_PKG_VERSION"))
}
