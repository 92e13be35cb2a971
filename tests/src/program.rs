//! The programs as children: the input a pipe or a file, the outputs pipes.

use crate::compare::Outcome;
use std::env;
use std::fs::{self, File};
use std::io::{Read, Write};
use std::process::{Child, ChildStderr, ChildStdin, ChildStdout, Command, Stdio};
use std::thread;

/// A program: the variable that names it, and where `./programs` leaves it.
pub struct Program {
    variable: &'static str,
    built: &'static str,
}

const REPORT: Program = Program {
    variable: "IRUMBOLAI_PROGRAM",
    built: concat!(env!("CARGO_MANIFEST_DIR"), "/../target/bin/scrub_report"),
};

pub const REPAIR: Program = Program {
    variable: "IRUMBOLAI_REPAIR",
    built: concat!(env!("CARGO_MANIFEST_DIR"), "/../target/bin/repair_image"),
};

impl Program {
    pub fn path(&self) -> String {
        env::var(self.variable).unwrap_or_else(|_| String::from(self.built))
    }

    fn spawn(&self, input: Stdio, error: Stdio) -> Outcome<Child> {
        let path = self.path();
        Command::new(&path)
            .stdin(input)
            .stdout(Stdio::piped())
            .stderr(error)
            .spawn()
            .map_err(|error| format!("{path} does not start: {error}"))
    }
}

fn ended(mut child: Child) -> Outcome<()> {
    let status = child.wait().expect("a child that was started");
    if status.success() {
        return Ok(());
    }
    Err(format!("the program ended with {status}"))
}

/// The end of a pipe that the program reads.
pub struct Input {
    pipe: ChildStdin,
    process: u32,
}

impl Input {
    fn of(child: &mut Child) -> Self {
        Input {
            pipe: child.stdin.take().expect("a pipe was asked for"),
            process: child.id(),
        }
    }

    pub fn write(&mut self, bytes: &[u8]) -> Outcome<()> {
        let written = self.pipe.write_all(bytes);
        written.map_err(|error| format!("the program does not read on: {error}"))
    }

    /// The most memory that the program has held so far, in KiB.
    pub fn peak_memory(&self) -> Outcome<u64> {
        let path = format!("/proc/{}/status", self.process);
        let status = fs::read_to_string(&path).map_err(|error| format!("{path}: {error}"))?;
        let line = status.lines().find_map(|line| line.strip_prefix("VmHWM:"));
        line.and_then(|line| line.trim().strip_suffix(" kB")?.parse().ok())
            .ok_or_else(|| format!("{path} does not tell the peak of memory"))
    }
}

/// Runs the report program over a pipe. `feed` writes its input while `judge` reads its output, so neither waits for the other's end.
pub fn piped<F: Send, J>(
    feed: impl FnOnce(&mut Input) -> Outcome<F> + Send,
    judge: impl FnOnce(ChildStdout) -> Outcome<J>,
) -> Outcome<(F, J)> {
    let mut child = REPORT.spawn(Stdio::piped(), Stdio::inherit())?;
    let mut input = Input::of(&mut child);
    let output = child.stdout.take().expect("a pipe was asked for");
    let (fed, judged) = thread::scope(|scope| {
        let fed = scope.spawn(move || feed(&mut input));
        let judged = judge(output);
        (fed.join().expect("feeding runs to its end"), judged)
    });
    let ended = ended(child);
    let judged = judged?;
    let fed = fed?;
    ended.map(|()| (fed, judged))
}

/// Runs the repair program over a pipe. `feed` writes its input while `image` and `list` read its outputs, so that none of the three waits for another.
pub fn repaired<F: Send, I: Send, L>(
    feed: impl FnOnce(&mut Input) -> Outcome<F> + Send,
    image: impl FnOnce(ChildStdout) -> Outcome<I> + Send,
    list: impl FnOnce(ChildStderr) -> Outcome<L>,
) -> Outcome<(F, I, L)> {
    let mut child = REPAIR.spawn(Stdio::piped(), Stdio::piped())?;
    let mut input = Input::of(&mut child);
    let output = child.stdout.take().expect("a pipe was asked for");
    let error = child.stderr.take().expect("a pipe was asked for");
    let (fed, image, list) = thread::scope(|scope| {
        let fed = scope.spawn(move || feed(&mut input));
        let image = scope.spawn(move || image(output));
        let list = list(error);
        let fed = fed.join().expect("feeding runs to its end");
        (fed, image.join().expect("reading runs to its end"), list)
    });
    let ended = ended(child);
    let (image, list) = (image?, list?);
    let fed = fed?;
    ended.map(|()| (fed, image, list))
}

/// All that the program writes.
pub fn text(mut output: impl Read) -> Outcome<String> {
    let mut text = String::new();
    match output.read_to_string(&mut text) {
        Ok(_) => Ok(text),
        Err(error) => Err(format!("the program's output: {error}")),
    }
}

/// Runs the report program over a file, and gives all that it writes.
pub fn over_file(file: File) -> Outcome<String> {
    let mut child = REPORT.spawn(Stdio::from(file), Stdio::inherit())?;
    let text = text(child.stdout.take().expect("a pipe was asked for"));
    ended(child).and(text)
}
