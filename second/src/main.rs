//! `second`: crane registers, their summaries, and questions on both, written a second time.
//! Without an argument it judges a fixed set of registers, asks a fixed set of questions, condenses
//! a fixed set of registers, checks a fixed set of proposed summaries, asks and lists from a fixed
//! set of summaries, makes every call at the limits, makes all five on a fixed set of thrown
//! inputs, and prints one line for each case. `second cases` writes the same cases as the commands
//! of docs/CASES.md, of which these lines have to come. `second condense` condenses the register on
//! standard input and prints its summary; `second inputs DIR` writes inputs for that into a folder.
//! `second counts` counts how the thrown inputs were answered, and how many of them have two faults
//! at once.

mod answers;
mod asking;
mod bytes;
mod caps;
mod check;
mod checking;
mod commands;
mod condense;
mod condensing;
mod counts;
mod difference;
mod families;
mod five;
mod five_generator;
mod generator;
mod inputs;
mod judging;
mod lent;
mod limits_run;
mod link;
mod listing;
mod neighbours;
mod numbers;
mod program;
mod proposed;
mod question;
mod question_generator;
mod refusal;
mod register;
mod said;
mod shapes;
mod summary;
mod summary_generator;
mod trial;
mod wellformed;
mod wrecked;

#[cfg(test)]
mod tests;

use std::env;
use std::io::{self, BufWriter, Write};
use std::process::ExitCode;

fn main() -> io::Result<ExitCode> {
    let arguments: Vec<_> = env::args_os().skip(1).collect();
    let mut out = BufWriter::new(io::stdout().lock());
    match arguments.as_slice() {
        [] => out.write_all(families::trial().lines().as_bytes())?,
        [word] if word == "cases" => out.write_all(families::trial().commands())?,
        [word] if word == "condense" => program::run(io::stdin().lock(), &mut out)?,
        [word, folder] if word == "inputs" => inputs::write(folder.as_ref(), &mut out)?,
        [word] if word == "counts" => counts::print(&mut out)?,
        _ => {
            eprintln!("usage: second [cases | condense | inputs DIR | counts]");
            return Ok(ExitCode::from(2));
        }
    }
    out.flush()?;
    Ok(ExitCode::SUCCESS)
}
