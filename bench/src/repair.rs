//! The repair program on clean images in memory that come through a pipe, beside `cat` and the report program.

use crate::machine;
use crate::random::{self, Random};
use crate::report::{damaged, image, run, started};
use crate::stripes::BLOCK;
use crate::timing::{keep, timed};
use std::hint::black_box;
use std::io::{Read, Write};
use std::path::Path;
use std::process::{Command, Stdio};
use std::thread;

/// How many turns each program has.
pub const ROUNDS: usize = 10;

/// The bytes of an image are about so many.
pub const IMAGE: usize = 256 << 20;

pub const MEMBERS: [usize; 2] = [3, 16];

// Who takes part.
pub const REPAIR: usize = 0;
const REPAIR_V3: usize = 1;
pub const REPORT: usize = 2;
const REPORT_V3: usize = 3;
pub const CAT: usize = 4;
const REPAIR_ON: usize = 5;
const REPAIR_ON_V3: usize = 6;
const CAT_ON: usize = 7;

pub const NAMES: [&str; 8] = [
    "Irumbolai's repair program",
    "Irumbolai's repair program, v3",
    "its report program",
    "its report program, v3",
    "`cat` to /dev/null",
    "the repair program into a pipe",
    "the repair program into a pipe, v3",
    "`cat` into a pipe",
];

/// The best times, in nanoseconds for the whole image.
pub struct Times {
    pub bytes: usize,
    pub programs: [Option<f64>; NAMES.len()],
}

/// Both repair programs write the same for an image with damaged stripes, which is as long and no longer the same.
pub fn compare(repair: [&Path; 2]) {
    let image = damaged(&mut Random::new(random::seed()));
    let [due, others] = repair.map(|path| {
        let here = path == repair[0] || machine::is_v3();
        here.then(|| written(path, &image))
    });
    let (mended, list) = due.expect("the plain program runs anywhere");
    assert!(mended.len() == image.len() && mended != image && !list.is_empty());
    if let Some(others) = others {
        assert!(others == (mended, list), "the repair program for v3");
    }
}

/// The image and the list that a repair program writes.
fn written(path: &Path, image: &[u8]) -> (Vec<u8>, Vec<u8>) {
    let mut command = Command::new(path);
    command.stderr(Stdio::piped());
    let mut child = started(&mut command, Stdio::piped());
    let mut pipe = child.stdin.take().expect("the input is a pipe");
    thread::scope(|scope| {
        scope.spawn(move || pipe.write_all(image).expect("the image is read"));
        let output = child.wait_with_output().expect("the program is waited for");
        (output.stdout, output.stderr)
    })
}

/// Runs a program on an image; what it writes goes into a pipe, which is read and forgotten.
fn run_on(command: &mut Command, image: &[u8]) {
    let mut child = started(command, Stdio::piped());
    let mut input = child.stdin.take().expect("the input is a pipe");
    let mut output = child.stdout.take().expect("the output is a pipe");
    thread::scope(|scope| {
        scope.spawn(move || input.write_all(image).expect("the image is read"));
        let mut buffer = [0; 1 << 16];
        while output.read(&mut buffer).expect("the output is read") > 0 {
            black_box(&buffer);
        }
    });
    let status = child.wait().expect("the program is waited for");
    assert!(status.success(), "{command:?}: {status}");
}

/// Who takes part can, on this processor.
fn is_here(who: usize) -> bool {
    ![REPAIR_V3, REPORT_V3, REPAIR_ON_V3].contains(&who) || machine::is_v3()
}

pub fn measure(members: usize, report: [&Path; 2], repair: [&Path; 2]) -> Times {
    let stripes = IMAGE / (members * BLOCK);
    let image = image(members, stripes, &mut Random::new(random::seed()));
    for path in repair.iter().take(1 + usize::from(machine::is_v3())) {
        let (mended, list) = written(path, &image);
        assert!(mended == image && list.is_empty(), "a clean image stays");
    }
    let mut times = Times {
        bytes: image.len(),
        programs: [None; NAMES.len()],
    };
    let command = |who| match who {
        REPAIR | REPAIR_ON => Command::new(repair[0]),
        REPAIR_V3 | REPAIR_ON_V3 => Command::new(repair[1]),
        REPORT => Command::new(report[0]),
        REPORT_V3 => Command::new(report[1]),
        _ => Command::new("cat"),
    };
    for _ in 0..ROUNDS {
        for who in (0..NAMES.len()).filter(|who| is_here(*who)) {
            let time = match who {
                REPAIR_ON | REPAIR_ON_V3 | CAT_ON => timed(|| run_on(&mut command(who), &image)),
                _ => timed(|| {
                    run(&mut command(who), &image, Stdio::null());
                }),
            };
            keep(&mut times.programs[who], time);
        }
    }
    times
}
