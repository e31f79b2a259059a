//! `replay [--model] [FILE]`: plays the script of FILE or of standard input on the proved library and writes one answer
//! line for each call line. With `--model` the independent model answers in its place.

use std::ffi::OsString;
use std::fs::File;
use std::io::{self, ErrorKind, Read};
use std::process::ExitCode;

const USAGE: &str = "usage: replay [--model] [FILE]   (a script from FILE or standard input)";

fn main() -> ExitCode {
    let mut arguments: Vec<OsString> = std::env::args_os().skip(1).collect();
    let by_model = arguments.first().is_some_and(|word| word == "--model");
    if by_model {
        arguments.remove(0);
    }
    let input: Box<dyn Read> = match &arguments[..] {
        [] => Box::new(io::stdin().lock()),
        [file] => match File::open(file) {
            Ok(input) => Box::new(input),
            Err(error) => {
                eprintln!("replay: {}: {error}", file.display());
                return ExitCode::FAILURE;
            }
        },
        _ => {
            eprintln!("{USAGE}");
            return ExitCode::from(2);
        }
    };
    let output = io::stdout().lock();
    let played = if by_model {
        script::play(model::Model::default(), input, output)
    } else {
        script::play(drawbevel::Drawbevel::default(), input, output)
    };
    match played {
        Ok(()) => ExitCode::SUCCESS,
        // Who reads the answers has had enough of them.
        Err(error) if error.kind() == ErrorKind::BrokenPipe => ExitCode::SUCCESS,
        Err(error) => {
            eprintln!("replay: {error}");
            ExitCode::FAILURE
        }
    }
}
