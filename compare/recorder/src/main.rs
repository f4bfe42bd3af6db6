//! Records what the crate futures-buffered answers to lists of calls, and repeats recordings on it.

mod random;
mod run;
mod tally;
mod tasks;
mod text;

use run::Run;
use std::{
    env, fs,
    io::{self, BufWriter, Read, Write},
    process::ExitCode,
};
use tally::Tally;
use text::{Call, Kind, Make};

const USAGE: &str = "usage:
  compare record KIND SEED COUNT   prints COUNT random runs; KIND is bounded, ordered, growing,
                                   growing-ordered, merge, growing-merge, all or limits
  compare replay [FILE]            repeats a recording, that of standard input without FILE or with -";

fn main() -> ExitCode {
    let arguments: Vec<String> = env::args_os()
        .skip(1)
        .map(|argument| argument.to_string_lossy().into_owned())
        .collect();
    let arguments: Vec<&str> = arguments.iter().map(String::as_str).collect();
    match arguments[..] {
        ["record", kind, seed, count] => match (seed.parse(), count.parse()) {
            (Ok(seed), Ok(count)) => record(kind, seed, count),
            _ => usage(),
        },
        ["replay"] | ["replay", "-"] => {
            let mut bytes = Vec::new();
            match io::stdin().lock().read_to_end(&mut bytes) {
                Ok(_) => replay(&bytes),
                Err(error) => failed("standard input", error),
            }
        }
        ["replay", file] => match fs::read(file) {
            Ok(bytes) => replay(&bytes),
            Err(error) => failed(file, error),
        },
        _ => usage(),
    }
}

fn usage() -> ExitCode {
    say(USAGE);
    ExitCode::from(2)
}

fn failed(what: &str, error: io::Error) -> ExitCode {
    say(&format!("{what}: {error}"));
    ExitCode::from(2)
}

/// Writes a line to standard error; if that is closed, nobody wants it.
fn say(line: &str) {
    let _ = writeln!(io::stderr(), "{line}");
}

fn record(kind: &str, seed: u64, count: u64) -> ExitCode {
    let mut tally = Tally::default();
    let mut out = BufWriter::new(io::stdout().lock());
    let kinds = match kind {
        "all" => Kind::ALL.to_vec(),
        "limits" => Vec::new(),
        _ => match Kind::parse(kind) {
            Some(kind) => vec![kind],
            None => return usage(),
        },
    };
    let written = writeln!(out, "# compare record {kind} {seed} {count}")
        .and_then(|()| match kinds.is_empty() {
            true => random::limits(count, &mut out, &mut tally),
            false => (0..count).try_for_each(|number| {
                let kind = kinds[(number % kinds.len() as u64) as usize];
                random::run(kind, seed, number, &mut out, &mut tally)
            }),
        })
        .and_then(|()| out.flush());
    if let Err(error) = written {
        return failed("standard output", error);
    }
    for line in tally.lines() {
        say(&line);
    }
    ExitCode::SUCCESS
}

fn replay(bytes: &[u8]) -> ExitCode {
    let mut tally = Tally::default();
    let mut out = BufWriter::new(io::stdout().lock());
    let mut run = None;
    let mut differences: u64 = 0;
    for (number, line) in bytes.split(|&byte| byte == b'\n').enumerate() {
        let line = String::from_utf8_lossy(line);
        let (printed, difference) = replay_line(&line, &mut run, &mut tally);
        if let Some(difference) = difference {
            differences += 1;
            say(&format!("line {}: {difference}", number + 1));
        }
        if let Some(printed) = printed {
            if let Err(error) = writeln!(out, "{printed}") {
                return failed("standard output", error);
            }
        }
    }
    if let Err(error) = out.flush() {
        return failed("standard output", error);
    }
    say(&format!(
        "{} runs, {} calls, {differences} differences",
        tally.runs, tally.calls
    ));
    ExitCode::from(u8::from(differences != 0))
}

/// Repeats one line: what to print for it, and in what it differs.
fn replay_line(
    line: &str,
    run: &mut Option<Run>,
    tally: &mut Tally,
) -> (Option<String>, Option<String>) {
    let words: Vec<&str> = line.split_whitespace().collect();
    if words.is_empty() || words[0].starts_with('#') {
        return (None, None);
    }
    if words[0] == "make" {
        return match Make::parse(&words[1..]) {
            Ok(make) => {
                *run = None; // let the earlier one go first
                *run = Some(Run::new(&make, tally));
                (Some(make.to_string()), None)
            }
            Err(error) => {
                *run = None;
                (None, Some(format!("cannot be read: {error}")))
            }
        };
    }
    let (words, recorded) = match words.iter().position(|&word| word == "=>") {
        Some(place) => (&words[..place], Some(words[place + 1..].join(" "))),
        None => (&words[..], None),
    };
    let call = match Call::parse(words) {
        Ok(call) => call,
        Err(error) => return (None, Some(format!("cannot be read: {error}"))),
    };
    let Some(run) = run else {
        return (None, Some("there is no good make line before it".into()));
    };
    match run.call(&call, tally) {
        Ok(answer) => {
            let answer = answer.to_string();
            let difference = recorded
                .filter(|recorded| *recorded != answer)
                .map(|recorded| format!("{call}: recorded {recorded}, the crate answers {answer}"));
            (Some(format!("{call} => {answer}")), difference)
        }
        Err(error) => (None, Some(format!("no call of this set: {error}"))),
    }
}
