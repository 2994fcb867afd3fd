//! Writes random lines for the file `states` of `register_runs` on standard output.

use std::process::ExitCode;

const USAGE: &str = "usage: states SEED COUNT";

fn main() -> ExitCode {
    let arguments: Vec<String> = std::env::args().skip(1).collect();
    let numbers: Vec<u64> = arguments.iter().filter_map(|a| a.parse().ok()).collect();
    match (arguments.len(), &numbers[..]) {
        (2, [seed, count]) => write(*seed, *count),
        _ => {
            eprintln!("{USAGE}");
            ExitCode::FAILURE
        }
    }
}

fn write(seed: u64, count: u64) -> ExitCode {
    for index in 0..count {
        println!(
            "{}",
            reference::random_states::line(seed.wrapping_add(index))
        );
    }
    ExitCode::SUCCESS
}
