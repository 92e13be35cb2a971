//! The report program on an image in memory that comes through a pipe, beside its peers and `cat`.

use crate::library::{self, Archive, Plain};
use crate::peers::{self, Isal, IsalV3, Ordinary};
use crate::random::{self, Random};
use crate::rows::{
    CONTESTANTS, ISAL, ISAL_V3, MEMCPY, ORDINARY, PLAIN, Room, V3, copy_stripe, guards,
};
use crate::stripes::{BLOCK, CRC, MEMBERS, STRIPE, VOLUME, Verdict, blocks, damage, seal};
use crate::timing::{is_here, keep, timed};
use std::env;
use std::hint::black_box;
use std::io::{self, BufReader, BufWriter, Read, Write};
use std::path::Path;
use std::process::{Child, Command, Stdio};
use std::thread;

/// How many turns each program has.
pub const ROUNDS: usize = 15;

/// The stripes of the image: 64 MiB.
const IMAGE: usize = (64 << 20) / STRIPE;

/// The stripes of the image, some of them damaged, on which programs are compared.
const COMPARED: usize = 300;

/// The word that makes this program a peer's report program.
pub const PEER: &str = "report";

const HEADER: usize = 9;

/// The buffers of the peers are as long as those of the proved program.
const BUFFER: usize = 65536;

/// Who has a report program.
const PROGRAMS: [usize; 5] = [PLAIN, V3, ORDINARY, ISAL, ISAL_V3];

/// The best times, in nanoseconds for the whole image; guards and scans of either archive.
pub struct Times {
    pub bytes: usize,
    pub programs: [Option<f64>; CONTESTANTS],
    pub cat: Option<f64>,
    pub guards: [Option<f64>; 2],
    pub scans: [Option<f64>; 2],
}

/// The report programs agree on an image with damaged stripes.
pub fn compare(programs: [&Path; 2]) {
    agree(programs, &damaged(&mut Random::new(random::seed())));
}

/// An image with damaged stripes.
pub fn damaged(random: &mut Random) -> Vec<u8> {
    let mut image = image(MEMBERS, COMPARED, random);
    for (number, bytes) in image[HEADER..].chunks_exact_mut(STRIPE).enumerate() {
        damage(CRC, number as u64, bytes, random);
    }
    image
}

pub fn measure(programs: [&Path; 2]) -> Times {
    let image = image(MEMBERS, IMAGE, &mut Random::new(random::seed()));
    agree(programs, &image);
    let mut times = Times {
        bytes: image.len(),
        programs: [None; CONTESTANTS],
        cat: None,
        guards: [None; 2],
        scans: [None; 2],
    };
    let mut room = Room::new();
    for _ in 0..ROUNDS {
        for who in PROGRAMS.into_iter().filter(|who| is_here(*who)) {
            let time = timed(|| run(&mut command(who, programs), &image, Stdio::null()));
            keep(&mut times.programs[who], time);
        }
        let cat = timed(|| run(&mut Command::new("cat"), &image, Stdio::null()));
        keep(&mut times.cat, cat);
        let stripes = || image[HEADER..].chunks_exact(STRIPE);
        let memcpy = timed(|| {
            for bytes in stripes() {
                copy_stripe(bytes, &mut room);
            }
        });
        keep(&mut times.programs[MEMCPY], memcpy);
        inside::<Plain>(&image, &mut room, &mut times, PLAIN);
        if is_here(V3) {
            inside::<library::V3>(&image, &mut room, &mut times, V3);
        }
    }
    times
}

/// Times the guards and the scans of an image by one archive in this process.
fn inside<A: Archive>(image: &[u8], room: &mut Room, times: &mut Times, who: usize) {
    let stripes = || image[HEADER..].chunks_exact(STRIPE);
    let guards = timed(|| {
        for bytes in stripes() {
            black_box(guards(library::guard::<A>, bytes));
        }
    });
    keep(&mut times.guards[who], guards);
    let scans = timed(|| {
        for (number, bytes) in stripes().enumerate() {
            let work = &mut room.work;
            black_box(library::scan::<A>(number as u64, blocks(bytes), work));
        }
    });
    keep(&mut times.scans[who], scans);
}

/// A clean image of so many members and stripes.
pub fn image(members: usize, stripes: usize, random: &mut Random) -> Vec<u8> {
    let mut image = vec![0x00, 0x07, 0x01, members as u8, VOLUME];
    image.extend((stripes as u32).to_be_bytes());
    image.resize(HEADER + stripes * members * BLOCK, 0);
    seal(members, CRC, &mut image[HEADER..], random);
    image
}

fn command(who: usize, programs: [&Path; 2]) -> Command {
    let peer = match who {
        PLAIN | V3 => return Command::new(programs[who]),
        ISAL => "isal",
        ISAL_V3 => "isal-v3",
        _ => "ordinary",
    };
    let mut command = Command::new(env::current_exe().expect("this program has a path"));
    command.args([PEER, peer]);
    command
}

/// Starts a program whose input is a pipe.
pub fn started(command: &mut Command, output: Stdio) -> Child {
    command
        .stdin(Stdio::piped())
        .stdout(output)
        .spawn()
        .unwrap_or_else(|error| panic!("{command:?}: {error}"))
}

/// Runs a program on an image that a thread writes into its input, until it has ended. Gives what it wrote.
pub fn run(command: &mut Command, image: &[u8], output: Stdio) -> Vec<u8> {
    let mut child = started(command, output);
    let mut pipe = child.stdin.take().expect("the input is a pipe");
    thread::scope(|scope| {
        scope.spawn(move || pipe.write_all(image).expect("the image is read"));
        let output = child.wait_with_output().expect("the program is waited for");
        assert!(output.status.success(), "{command:?}: {}", output.status);
        output.stdout
    })
}

/// The programs write the report that the library's scrub gives.
fn agree(programs: [&Path; 2], image: &[u8]) {
    let mut due = Vec::new();
    let scrub = |stripe, bytes: &[u8]| library::scrub::<Plain>(CRC, stripe, bytes);
    report(image, &mut due, scrub).expect("memory takes the report");
    for who in PROGRAMS.into_iter().filter(|who| is_here(*who)) {
        let mut command = command(who, programs);
        let found = run(&mut command, image, Stdio::piped());
        assert!(found == due, "{command:?}: another report is due");
    }
}

/// The report program of a peer. Unlike the proved one it takes whole images of sixteen members alone, and refuses none.
pub fn peer(name: &str) -> io::Result<()> {
    let scrub = match name {
        "isal" => peers::scrub::<Isal>,
        "isal-v3" => peers::scrub::<IsalV3>,
        _ => peers::scrub::<Ordinary>,
    };
    let input = BufReader::with_capacity(BUFFER, io::stdin());
    let output = BufWriter::with_capacity(BUFFER, io::stdout());
    report(input, output, scrub)
}

fn report(
    mut input: impl Read,
    mut output: impl Write,
    scrub: fn(u64, &[u8]) -> Verdict,
) -> io::Result<()> {
    let mut header = [0; HEADER];
    input.read_exact(&mut header)?;
    let [_, _, _, members, _, s0, s1, s2, s3] = header;
    let stripes = u32::from_be_bytes([s0, s1, s2, s3]);
    writeln!(output, "SCRUB v1 members {members} stripes {stripes}")?;
    let (mut clean, mut bad, mut unchecked, mut torn) = (0, 0, 0, 0);
    let mut bytes = [0; STRIPE];
    for stripe in 0..stripes {
        input.read_exact(&mut bytes)?;
        match scrub(u64::from(stripe), &bytes) {
            Verdict::Clean => {
                clean += 1;
                writeln!(output, "{stripe} CLEAN")?;
            }
            Verdict::Bad {
                member,
                count,
                fits,
            } => {
                bad += 1;
                write!(output, "{stripe} BAD {member} {count} ")?;
                for (letter, fits) in ['G', 'A', 'R'].into_iter().zip(fits) {
                    write!(output, "{}", if fits { '-' } else { letter })?;
                }
                writeln!(output)?;
            }
            Verdict::Unchecked { member, count } => {
                unchecked += 1;
                writeln!(output, "{stripe} UNCHECKED {member} {count}")?;
            }
            Verdict::Torn { place } => {
                torn += 1;
                writeln!(output, "{stripe} TORN {place}")?;
            }
        }
    }
    writeln!(
        output,
        "TOTAL {stripes} clean {clean} bad {bad} unchecked {unchecked} torn {torn}"
    )?;
    output.flush()
}
