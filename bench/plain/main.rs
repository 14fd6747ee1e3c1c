//! `muxsim run` in plain Rust, with no contract and no proof, to compare times with: the same texts, replies, faults
//! and statuses. It keeps spans of its input in place of values, and no history: each reply is written as it comes.
//! `plain N` has N workers perform the commands, each on a thread of its own, which takes a lock for each command.

mod config;
mod text;

use config::Config;
use std::io::{self, Read, Write};
use std::process::ExitCode;
use std::sync::Mutex;
use std::thread;
use text::{Line, Programs};

const MAX_INPUT: usize = 16_777_216;

/// Why nothing was run, or nothing was written.
pub enum Fault {
    Refused { driver: usize, why: &'static str },
    Text { line: usize, cause: &'static str },
    TooLong,
    ReadFailed,
    WriteFailed,
}

fn main() -> ExitCode {
    match run() {
        Ok(()) => ExitCode::SUCCESS,
        Err(fault) => {
            let (status, words) = match fault {
                Fault::Refused { driver, why } => (1, format!("refused: driver {driver} {why}")),
                Fault::Text { line, cause } => (3, format!("line {line}: {cause}")),
                Fault::TooLong => (3, "input too long".into()),
                Fault::ReadFailed => (5, "read failed".into()),
                Fault::WriteFailed => (5, "write failed".into()),
            };
            eprintln!("muxsim: {words}");
            ExitCode::from(status)
        }
    }
}

fn run() -> Result<(), Fault> {
    let mut input = Vec::new();
    let limit = MAX_INPUT as u64 + 1;
    io::stdin().lock().take(limit).read_to_end(&mut input).map_err(|_| Fault::ReadFailed)?;
    if input.len() > MAX_INPUT {
        return Err(Fault::TooLong);
    }
    let programs = text::programs(&input)?;
    let mut config = Config::new(&programs.drivers)?;
    let mut out = Vec::with_capacity(input.len() * 2);
    text::put_beginning(&mut out, &programs);
    let workers = std::env::args().nth(1).and_then(|count| count.parse().ok()).unwrap_or(1);
    if workers > 1 {
        let shared = Mutex::new((&mut config, &mut out));
        thread::scope(|scope| {
            for worker in 0..workers {
                let (shared, programs) = (&shared, &programs);
                scope.spawn(move || run_part(shared, programs, workers, worker));
            }
        });
    } else {
        for (process, line) in &programs.commands {
            perform(&mut config, &mut out, *process, line);
        }
    }
    config.put_view(&mut out);
    out.extend_from_slice(b"end\n");
    let mut stdout = io::stdout().lock();
    stdout.write_all(&out).and_then(|()| stdout.flush()).map_err(|_| Fault::WriteFailed)
}

fn perform<'a>(config: &mut Config<'a>, out: &mut Vec<u8>, process: u32, line: &Line<'a>) {
    text::put_call(out, process, line.text);
    config.step(process, &line.command, out);
    out.push(b'\n');
}

/// The processes of one worker: those whose number modulo that of the workers is its own.
fn run_part<'a>(
    shared: &Mutex<(&mut Config<'a>, &mut Vec<u8>)>,
    programs: &Programs<'a>,
    workers: usize,
    worker: usize,
) {
    let own = |process: u32| process as usize % workers == worker;
    for (process, line) in programs.commands.iter().filter(|(process, _)| own(*process)) {
        let mut held = shared.lock().unwrap();
        let (config, out) = &mut *held;
        perform(config, out, *process, line);
    }
}
