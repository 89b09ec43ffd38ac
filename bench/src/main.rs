//! Compares the proved services with the same services in plain Rust: first the answers and the
//! words left in the lent memory, then the time of a whole call. The first argument is the number
//! of rounds; `--only` and a name select one service, and `--growth` gives the table that `plot`
//! draws.

mod alike;
mod answers;
mod archived;
#[cfg(before)]
mod before;
mod bytes;
mod case;
mod grammars;
mod growth;
mod ours;
mod plain;
mod random;
mod records;
mod services;
mod sizes;
mod timing;

use services::Service;
use std::process::ExitCode;

/// Does what the arguments ask for, or nothing where they ask for nothing that there is.
fn run(words: &[&str]) -> Option<()> {
    let (rounds, rest) = match words {
        [first, rest @ ..] if !first.starts_with("--") => (positive(first)?, rest),
        _ => (15, words),
    };
    match *rest {
        [] => time(&services::ALL, rounds),
        ["--only", name] => {
            let service = services::ALL
                .into_iter()
                .find(|service| service.0 == name)?;
            time(&[service], rounds);
        }
        ["--growth"] => growth::print(rounds),
        _ => return None,
    }
    Some(())
}

fn time(services: &[Service], rounds: usize) {
    timing::explain(rounds);
    for (name, run) in services {
        println!("\n{name}");
        run(rounds);
    }
}

fn positive(word: &str) -> Option<usize> {
    word.parse().ok().filter(|&number| number > 0)
}

fn main() -> ExitCode {
    let words: Vec<String> = std::env::args().skip(1).collect();
    let words: Vec<&str> = words.iter().map(String::as_str).collect();
    if run(&words).is_none() {
        eprintln!(
            "arguments: [ROUNDS] [--only judge|count|reading|page|number|check|session|bytes | --growth]"
        );
        return ExitCode::from(2);
    }
    ExitCode::SUCCESS
}
