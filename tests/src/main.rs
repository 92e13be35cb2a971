//! Comparisons of the proved library and the programs with a model of their own, written from the standard and the rules, on many
//! inputs.

mod compare;
mod figures;
mod lent;
mod library;
mod program;
mod random;

use random::Random;
use std::process::ExitCode;
use std::thread;

/// Compares one part of the library, or the program, with its model: what was compared, or the first difference.
type Comparison = fn(&mut Random) -> Result<String, String>;

const PARTS: &[(&str, Comparison)] = &[
    ("figures", figures::check),
    ("guard", compare::guard::compare),
    ("checksum", compare::checksum::compare),
    ("crc32c", compare::crc32c::compare),
    ("join", compare::join::compare),
    ("layout", compare::layout::compare),
    ("md", compare::md::compare),
    ("tag", compare::tag::compare),
    ("kernel", compare::kernel::compare),
    ("stripe", compare::stripe::compare),
    ("scrub", compare::scrub::compare),
    ("scan", compare::scan::compare),
    ("patrol", compare::patrol::compare),
    ("standing", compare::standing::compare),
    ("faults", compare::faults::compare),
    ("write hole", compare::write_hole::compare),
    ("torn", compare::torn::compare),
    ("life", compare::life::compare),
    ("intent", compare::intent::compare),
    ("images", compare::images::compare),
    ("large image", compare::large::compare),
    ("repairs", compare::repairs::compare),
    ("large repair", compare::large_repair::compare),
    ("failed writes", compare::failed_writes::compare),
];

fn main() -> ExitCode {
    let seed = random::seed();
    println!("seed {seed} (set {} for another)", random::SEED);
    let running = PARTS.iter().map(|(part, compare)| {
        let compared = thread::spawn(move || compare(&mut Random::new(seed)));
        (part, compared)
    });
    for (part, compared) in running.collect::<Vec<_>>() {
        match compared.join().expect("a part runs to its end") {
            Ok(compared) => println!("{part}: {compared}"),
            Err(difference) => {
                eprintln!("{part}: DIFFERENT: {difference}");
                return ExitCode::FAILURE;
            }
        }
    }
    ExitCode::SUCCESS
}
