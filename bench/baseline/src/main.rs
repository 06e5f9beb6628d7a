//! The yardstick of the benchmarks: the tracing machine as a fast program by hand, without contracts.
//!
//! It reads scenarios that are accepted, and prints the same lines as `tracehost FILE`. Of one that is refused it only
//! says so: whoever measures compares the work, and not the words of faults.

#![no_main]

use std::io::{self, Write};

use baseline::bytes::Bytes;
use baseline::reading::{self, Scenario};
use baseline::scanning::Padded;
use baseline::tables::Users;
use baseline::text::Lines;

/// A part of its own in profiles, as `reading::read` is.
#[inline(never)]
fn print(scenario: &Scenario) -> io::Result<()> {
    let mut users = Users::new(scenario.kills_tracees);
    let mut lines = Lines(Bytes::of_a_block());
    let mut output = io::stdout().lock();
    for (user, step) in &scenario.steps {
        if lines.0.is_full() {
            output.write_all(lines.0.bytes())?;
            lines.0.clear();
        }
        let table = users.table(*user);
        lines.begin(&mut table.front.head);
        table.step(step, &scenario.rules, &mut lines);
    }
    output.write_all(lines.0.bytes())
}

fn run(path: &str) -> Result<(), &'static str> {
    let text = Padded::of_file(path).map_err(|_| "cannot read")?;
    let scenario = reading::read(&text).ok_or("refused")?;
    print(&scenario).map_err(|_| "cannot write")
}

/// The main function of C: a short run does without what Rust's own one prepares.
#[no_mangle]
extern "C" fn main() -> i32 {
    let Some(path) = std::env::args().nth(1) else {
        eprintln!("baseline: name a scenario");
        return 2;
    };
    match run(&path) {
        Ok(()) => 0,
        Err(fault) => {
            eprintln!("baseline: {fault}");
            if fault == "refused" {
                1
            } else {
                3
            }
        }
    }
}
