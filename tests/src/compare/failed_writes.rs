//! The repair program where its outputs cannot be written: it tells that the image is not whole, writes no more, and reads no more.

use super::Outcome;
use super::cases::Case;
use super::known;
use crate::program::{self, REPAIR};
use crate::random::Random;
use model::layout::Array;
use model::repair::{self, Repaired};
use model::{report, stripe};
use std::env;
use std::fs::{self, File};
use std::io::{Read, Write};
use std::os::unix::process::ExitStatusExt;
use std::process::{self, Child, Command, Stdio};
use std::thread;

/// What is told of an image that could not be written.
const TOLD: &str =
    "repair_image: the image could not be written, and what there is of it is not whole\n";
/// How many bytes there is room for where there is room for some.
const ROOM: usize = 200 << 10;
/// How many bytes are offered to a program that is to stop: much more than it may hold.
const OFFERED: usize = 32 << 20;

/// The program as a shell starts it. Some words do what a shell can do to a child: close its outputs, limit what it may write, or have a signal
/// ignored that would end it.
fn started(words: &str, output: Stdio, error: Stdio) -> Outcome<Child> {
    Command::new("sh")
        .args(["-c", &format!("{words} exec \"$0\""), &REPAIR.path()])
        .stdin(Stdio::piped())
        .stdout(output)
        .stderr(error)
        .spawn()
        .map_err(|error| format!("a shell does not start: {error}"))
}

fn full() -> Outcome<Stdio> {
    let full = File::options().write(true).open("/dev/full");
    full.map(Stdio::from)
        .map_err(|error| format!("/dev/full: {error}"))
}

/// Offers an image to the program, and says whether it took all of it.
fn offer(child: &mut Child, image: &[u8]) -> bool {
    let mut pipe = child.stdin.take().expect("a pipe was asked for");
    pipe.write_all(image).is_ok()
}

/// The list of a program that is offered an image, whether it took all of that, and the signal that ended it, if one did.
fn listed(mut child: Child, image: &[u8]) -> Outcome<(String, bool, Option<i32>)> {
    let mut error = child.stderr.take().expect("a pipe was asked for");
    let (taken, list) = thread::scope(|scope| {
        let taken = scope.spawn(|| offer(&mut child, image));
        let list = program::text(&mut error);
        (taken.join().expect("offering runs to its end"), list)
    });
    let status = child.wait().expect("a child that was started");
    Ok((list?, taken, status.signal()))
}

/// An image of at least so many bytes, with damage of every kind.
fn any_image(length: usize, random: &mut Random) -> Vec<u8> {
    let mut array = Array {
        members: random.between(3, 16) as usize,
        stripes: 1,
        volume: 7,
        method: random.pick(&[1, 2]),
        row: 1,
    };
    array.stripes = length.div_ceil(array.stripe_length()) as u64;
    let mut image = report::header(&array);
    for stripe in 0..array.stripes {
        image.extend(Case::any(array, stripe, random).bytes);
    }
    image
}

/// The beginning of a long image, whose stripes are clean and hold zeros: more than is taken by a program that stops.
fn endless() -> Vec<u8> {
    let array = Array {
        members: 16,
        stripes: 1 << 32,
        volume: 7,
        method: 1,
        row: 1,
    };
    let mut image = report::header(&array);
    let mut stripes = 0..;
    while image.len() < OFFERED {
        let stripe = stripes.next().expect("there is no end");
        for member in 0..array.members {
            image.extend(stripe::tagged(&array, stripe, member, &[0; 512], 0));
        }
    }
    image
}

/// Nothing of the image can be written. A refused header has no image, so nothing fails.
fn nothing_written(random: &mut Random) -> Outcome<usize> {
    let ways: [(&str, fn() -> Outcome<Stdio>); 3] = [
        ("", full),
        ("exec >&-;", || Ok(Stdio::null())),
        ("trap '' PIPE;", || Ok(Stdio::piped())),
    ];
    let endless = endless();
    let images = [any_image(1, random), any_image(ROOM, random)];
    for (words, output) in ways {
        let start = || -> Outcome<Child> {
            let mut child = started(words, output()?, Stdio::piped())?;
            // A pipe that nobody reads.
            drop(child.stdout.take());
            Ok(child)
        };
        for image in &images {
            let (list, _, signal) = listed(start()?, image)?;
            known((TOLD, None), (&list, signal))?;
        }
        let (list, taken, signal) = listed(start()?, &endless)?;
        known((TOLD, false, None), (&list, taken, signal))?;
        let (list, taken, signal) = listed(start()?, &images[0][..5])?;
        known(("REFUSED 10\n", true, None), (&list, taken, signal))?;
    }
    Ok(4 * ways.len())
}

/// A pipe that nobody reads, started with the signal as it is: the program ignores it from its start, and tells.
fn unread_pipe() -> Outcome<usize> {
    let mut child = started("", Stdio::piped(), Stdio::piped())?;
    drop(child.stdout.take());
    let (list, taken, signal) = listed(child, &endless())?;
    known((TOLD, false, None), (&list, taken, signal))?;
    Ok(1)
}

/// The report on an image ends so, if it is not whole.
fn is_cut(image: &[u8]) -> Outcome<()> {
    let ((), text) = program::piped(|input| input.write(image), program::text)?;
    known(Some("REFUSED 11"), text.lines().last())
}

/// A file for an output, which has no name any more.
fn unnamed_file() -> Outcome<(File, File)> {
    let path = env::temp_dir().join(format!("irumbolai-repair-{}", process::id()));
    let written = File::create_new(&path);
    let read = File::open(&path);
    let opened = written.and_then(|written| Ok((written, read?)));
    let removed = fs::remove_file(&path);
    opened
        .and_then(|opened| removed.map(|()| opened))
        .map_err(|error| format!("{}: {error}", path.display()))
}

/// There is room for some of the image: so much of it is written, the lines of stripes that are all there, and then what is told.
fn written_in_part(random: &mut Random) -> Outcome<usize> {
    let image = any_image(3 * ROOM, random);
    let due = repair::repair(&image);
    let (written, mut read) = unnamed_file()?;
    // The limit is in halves of a KiB.
    let words = format!("trap '' XFSZ; ulimit -f {};", ROOM / 512);
    let child = started(&words, Stdio::from(written), Stdio::piped())?;
    let (list, _, signal) = listed(child, &image)?;
    let mut found = Vec::new();
    read.read_to_end(&mut found)
        .map_err(|error| format!("what was written: {error}"))?;
    known(None, signal)?;
    known(ROOM, found.len())?;
    known(true, due.image.starts_with(&found))?;
    let Some(lines) = list.strip_suffix(TOLD) else {
        return Err(format!("nothing is told in {list:?}"));
    };
    is_prefix_for(&found, lines, &due)?;
    is_cut(&found)?;
    Ok(1)
}

/// Lines of a list, from its start, each of a stripe that is whole in what was written.
fn is_prefix_for(written: &[u8], lines: &str, due: &Repaired) -> Outcome<()> {
    let stripe = usize::from(written[3]) * 520;
    let whole = (written.len() - report_header(written)) / stripe;
    let last = lines.lines().last().and_then(|line| line.split(' ').next());
    let behind: Option<usize> = last.and_then(|number| number.parse().ok());
    if due.list.starts_with(lines)
        && lines.ends_with('\n')
        && behind.is_some_and(|last| last < whole)
    {
        return Ok(());
    }
    Err(format!(
        "of {whole} stripes these lines were told: {lines:?}"
    ))
}

fn report_header(image: &[u8]) -> usize {
    2 + usize::from(image[1])
}

/// The list cannot be written, which nobody can be told: the copying ends, and what there is of the image is seen to be cut. An image that needs no list
/// is written whole.
fn no_list(random: &mut Random) -> Outcome<usize> {
    let copied = |image: &[u8]| -> Outcome<(Vec<u8>, bool)> {
        let mut child = started("", Stdio::piped(), full()?)?;
        let mut output = child.stdout.take().expect("a pipe was asked for");
        let (taken, read, found) = thread::scope(|scope| {
            let taken = scope.spawn(|| offer(&mut child, image));
            let mut found = Vec::new();
            let read = output.read_to_end(&mut found);
            (taken.join().expect("offering runs to its end"), read, found)
        });
        child.wait().expect("a child that was started");
        read.map_err(|error| format!("the image: {error}"))?;
        Ok((found, taken))
    };
    let endless = endless();
    let (found, taken) = copied(&endless)?;
    known((true, true), (taken, found == endless))?;
    let mut listed = endless;
    let mark = report_header(&listed) + 514;
    listed[mark..mark + 2].fill(0xFF);
    let (found, taken) = copied(&listed)?;
    known((false, true), (taken, listed.starts_with(&found)))?;
    is_cut(&found)?;
    let image = any_image(10 * ROOM, random);
    let (found, _) = copied(&image)?;
    known(true, repair::repair(&image).image.starts_with(&found))?;
    is_cut(&found)?;
    Ok(3)
}

pub fn compare(random: &mut Random) -> Outcome<String> {
    let tried = [
        nothing_written(random)?,
        unread_pipe()?,
        written_in_part(random)?,
        no_list(random)?,
    ];
    Ok(format!(
        "{} told in the list, or seen in the image",
        tried.iter().sum::<usize>()
    ))
}
