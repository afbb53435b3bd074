//! The commands: replay, make, bench and cover.

use std::io::{self, BufWriter};
use std::path::Path;
use std::process::ExitCode;

use second::script::replay::{replay, End};
use second::{bench, cover, make};

const USAGE: &str = "second replay < SCRIPT
second make SEED STEPS DIR
second bench [times]
second cover DIR";

fn main() -> ExitCode {
    let arguments: Vec<String> = std::env::args().skip(1).collect();
    let words: Vec<&str> = arguments.iter().map(String::as_str).collect();
    match run(&words) {
        Ok(status) => status,
        Err(error) => {
            eprintln!("{error}");
            ExitCode::from(2)
        }
    }
}

fn run(words: &[&str]) -> Result<ExitCode, Box<dyn std::error::Error>> {
    match words {
        ["replay"] => run_replay(),
        ["make", seed, steps, directory] => {
            make::make(seed.parse()?, steps.parse()?, Path::new(directory))?;
            Ok(ExitCode::SUCCESS)
        }
        ["bench"] => Ok(run_bench(false)),
        ["bench", "times"] => Ok(run_bench(true)),
        ["cover", directory] => Ok(ExitCode::from(u8::from(!cover::cover(Path::new(directory))?))),
        _ => {
            eprintln!("{USAGE}");
            Ok(ExitCode::from(2))
        }
    }
}

fn run_replay() -> Result<ExitCode, Box<dyn std::error::Error>> {
    let out = BufWriter::new(io::stdout().lock());
    match replay(io::stdin().lock(), out)? {
        End::Reached => Ok(ExitCode::SUCCESS),
        End::Unreadable { line, why } => {
            eprintln!("line {line}: {}", why.0);
            Ok(ExitCode::from(1))
        }
    }
}

fn run_bench(times: bool) -> ExitCode {
    bench::bench(times);
    ExitCode::SUCCESS
}
