//! The speed of the library and of the programs beside their peers, as tables in markdown.

mod joins;
mod library;
mod machine;
mod peers;
#[allow(dead_code)]
#[path = "../../tests/src/random.rs"]
mod random;
mod repair;
mod report;
mod rows;
mod stripes;
mod table;
mod timing;

use rows::{CONTESTANTS, ISAL, ISAL_V3, MEMCPY, ORDINARY, PLAIN, ROWS, Source, V3};
use std::env;
use std::path::Path;
use table::{Table, known, number};
use timing::Ground;

fn main() {
    let words: Vec<String> = env::args().skip(1).collect();
    match words.iter().map(String::as_str).collect::<Vec<_>>()[..] {
        [report::PEER, name] => report::peer(name).expect("the image is whole"),
        [report, report_v3, repair, repair_v3] => measure(
            [report, report_v3].map(Path::new),
            [repair, repair_v3].map(Path::new),
        ),
        _ => panic!(
            "four words wanted: the paths of the report program, plain and for v3, and those of the repair program"
        ),
    }
}

/// The programs are plain and for v3.
fn measure(report: [&Path; 2], repair: [&Path; 2]) {
    ROWS.iter().for_each(timing::compare);
    report::compare(report);
    repair::compare(repair);
    machine::print();
    println!();
    jobs();
    println!();
    joins();
    let times = report::measure(report);
    println!();
    reports(&times);
    println!();
    shares(&times);
    println!();
    repairs(report, repair);
}

/// The rate of the first as a multiple of the second's: above 1 the first is faster.
fn rate(ours: Option<f64>, theirs: Option<f64>) -> Option<f64> {
    Some(theirs? / ours?)
}

/// Whose rates are told as multiples of whose, in the order of the columns.
const PAIRS: [(usize, usize, &str); 6] = [
    (PLAIN, ORDINARY, "plain × ordinary"),
    (PLAIN, ISAL, "plain × ISA-L"),
    (PLAIN, MEMCPY, "plain × memcpy"),
    (V3, ORDINARY, "v3 × ordinary"),
    (V3, ISAL_V3, "v3 × ISA-L v3"),
    (V3, MEMCPY, "v3 × memcpy"),
];

fn rates(times: &[Option<f64>; CONTESTANTS]) -> impl Iterator<Item = String> {
    PAIRS
        .into_iter()
        .map(|(ours, theirs, _)| known(rate(times[ours], times[theirs])))
}

fn jobs() {
    let mut times = Table::new(&[
        "job",
        "bytes from",
        "ns for one",
        "plain",
        "v3",
        "ordinary",
        "ISA-L",
        "ISA-L v3",
        "memcpy",
    ]);
    let heads = PAIRS.iter().map(|(_, _, head)| *head);
    let mut ratios = Table::new(
        &["job", "bytes from"]
            .into_iter()
            .chain(heads)
            .collect::<Vec<_>>(),
    );
    let mut ground = Ground::new();
    let mut all: Vec<_> = ROWS
        .iter()
        .flat_map(|row| row.sources.iter().map(move |source| (row, *source)))
        .map(|(row, source)| (row, source, [None; CONTESTANTS]))
        .collect();
    for _ in 0..timing::PASSES {
        for (row, source, best) in &mut all {
            ground.turns(row, *source, best);
        }
    }
    for (row, source, best) in all {
        let from = match source {
            Source::L1 => String::from("L1"),
            Source::L2 => String::from("L2"),
            Source::Memory => format!("{} MiB", timing::SEGMENTS),
        };
        let place = [row.name.to_string(), from];
        let unit = [row.unit.to_string()];
        let rates = rates(&best);
        ratios.row(place.clone().into_iter().chain(rates).collect());
        times.row(
            place
                .into_iter()
                .chain(unit)
                .chain(best.map(known))
                .collect(),
        );
    }
    println!(
        "Best of {} rounds, the contestants in turn, in {} passes over all rows:",
        timing::ROUNDS,
        timing::PASSES
    );
    println!();
    times.print(3);
    println!();
    println!("The same as rates:");
    println!();
    ratios.print(2);
}

fn joins() {
    let mut table = Table::new(&[
        "length of the second run",
        "join",
        "ordinary",
        "ISA-L",
        "memcpy",
    ]);
    let mut ground = joins::Ground::new();
    ground.compare();
    for length in joins::LENGTHS {
        let words = [length.to_string()];
        let times = ground.best(length).map(known);
        table.row(words.into_iter().chain(times).collect());
    }
    let longest = [Some(joins::join(joins::LONGEST)), None, None, None];
    let words = [joins::LONGEST.to_string()];
    table.row(words.into_iter().chain(longest.map(known)).collect());
    println!(
        "A guard of two runs from their guards, beside the second run gone through again from memory, in ns, best of {} rounds:",
        joins::ROUNDS
    );
    println!();
    table.print(1);
}

fn reports(times: &report::Times) {
    let mut table = Table::new(&["program", "ms", "MB/s", "× cat"]);
    let of = times.programs;
    for (name, time) in [
        ("Irumbolai's report program", of[PLAIN]),
        ("Irumbolai's report program, v3", of[V3]),
        ("ordinary Rust report", of[ORDINARY]),
        ("Rust report over ISA-L", of[ISAL]),
        ("Rust report over ISA-L v3", of[ISAL_V3]),
        ("`cat` to /dev/null", times.cat),
        ("memcpy in this process, no pipe", of[MEMCPY]),
    ] {
        let megabytes = time.map(|time| times.bytes as f64 * 1e3 / time);
        let cat = rate(time, times.cat);
        let numbers = [time.map(|time| time / 1e6), megabytes, cat].map(known);
        let words = [name.to_string()];
        table.row(words.into_iter().chain(numbers).collect());
    }
    println!(
        "An image of {} MB through a pipe, best of {} rounds:",
        number(times.bytes as f64 / 1e6),
        report::ROUNDS
    );
    println!();
    table.print(1);
}

/// Where the time of the report program goes, in milliseconds and as shares, of the plain one and of that for v3.
fn shares(times: &report::Times) {
    let mut table = Table::new(&[
        "where the report's time goes",
        "ms",
        "share",
        "v3, ms",
        "v3, share",
    ]);
    let whole = [PLAIN, V3].map(|who| times.programs[who]);
    let less = |more: [Option<f64>; 2], part: [Option<f64>; 2]| {
        [0, 1].map(|who| Some(more[who]? - part[who]?))
    };
    for (name, parts) in [
        ("guards of its blocks, alone in this process", times.guards),
        (
            "the rest of its scans, in this process",
            less(times.scans, times.guards),
        ),
        (
            "what is left: pipe, start of the program, lines",
            less(whole, times.scans),
        ),
        ("the report", whole),
        ("beside it: `cat` of the same image", [times.cat; 2]),
    ] {
        let cells = [0, 1].into_iter().flat_map(|who| {
            let share = rate(whole[who], parts[who]).map(|share| format!("{:.1} %", 100.0 * share));
            let time = parts[who].map(|time| time / 1e6);
            [known(time), share.unwrap_or_else(|| String::from("-"))]
        });
        table.row([name.to_string()].into_iter().chain(cells).collect());
    }
    table.print(1);
}

fn repairs(report: [&Path; 2], repair: [&Path; 2]) {
    let mut table = Table::new(&["program", "members", "ms", "MB/s", "× cat", "× report"]);
    for members in repair::MEMBERS {
        let times = repair::measure(members, report, repair);
        for (who, time) in repair::NAMES.iter().zip(times.programs) {
            let words = [who.to_string(), members.to_string()];
            let megabytes = time.map(|time| times.bytes as f64 * 1e3 / time);
            let numbers = [
                time.map(|time| time / 1e6),
                megabytes,
                rate(time, times.programs[repair::CAT]),
                rate(time, times.programs[repair::REPORT]),
            ];
            table.row(words.into_iter().chain(numbers.map(known)).collect());
        }
    }
    println!(
        "The repair of a clean image of {} MiB through a pipe, to /dev/null and into a pipe that is read, best of {} rounds:",
        repair::IMAGE >> 20,
        repair::ROUNDS
    );
    println!();
    table.print(1);
}
