//! Names and numbers are those of the header of the client in C, which has FreeBSD's.

use std::collections::HashMap;
use tracehost::{Errno, EventMask, Signal, StopFlags};

/// The numbers that the header defines, by their names without `TH_`.
fn defined() -> HashMap<String, u32> {
    let path = concat!(env!("CARGO_MANIFEST_DIR"), "/../c/tracehost_client.h");
    let header = std::fs::read_to_string(path).expect("the header of the client in C");
    let words = header
        .lines()
        .filter_map(|line| line.strip_prefix("#define TH_")?.split_once(' '));
    words
        .filter_map(|(name, value)| Some((name.to_string(), number(value)?)))
        .collect()
}

fn number(text: &str) -> Option<u32> {
    match text.strip_prefix("0x") {
        Some(digits) => u32::from_str_radix(digits, 16).ok(),
        None => text.parse().ok(),
    }
}

/// How many names begin like this.
fn count(defined: &HashMap<String, u32>, start: &str) -> usize {
    defined.keys().filter(|name| name.starts_with(start)).count()
}

#[test]
fn signals() {
    let mut defined = defined();
    defined.retain(|name, _| name.starts_with("SIG") && !name.starts_with("SIG_"));
    assert_eq!(defined.len(), Signal::ALL.len());
    for signal in Signal::ALL {
        assert_eq!(defined.get(signal.name()), Some(&signal.number()), "{signal}");
        assert_eq!(Signal::from_number(signal.number()), Some(*signal));
    }
    assert_eq!(Signal::from_number(0), None);
    assert_eq!(Signal::from_number(32), None);
}

#[test]
fn errors() {
    let defined = defined();
    for errno in Errno::ALL {
        assert_eq!(defined.get(errno.name()), Some(&errno.number()), "{errno}");
        assert_eq!(Errno::from_number(errno.number()), Some(*errno));
    }
    assert_eq!(Errno::from_number(2), None);
    assert_eq!(Errno::EBUSY.to_string(), "Device busy");
}

#[test]
fn events() {
    let defined = defined();
    assert_eq!(count(&defined, "PTRACE_"), 6);
    for (name, bits) in defined.iter().filter(|(name, _)| name.starts_with("PTRACE_")) {
        assert_eq!(
            EventMask::from_bits(*bits).map(|mask| mask.to_string()).as_ref(),
            Some(name)
        );
    }
    assert_eq!(EventMask::from_bits(64), None);
    assert_eq!(EventMask::empty().to_string(), "none");
}

#[test]
fn stop_flags() {
    let defined = defined();
    assert_eq!(count(&defined, "PL_FLAG_"), 9);
    for (name, bits) in defined.iter().filter(|(name, _)| name.starts_with("PL_FLAG_")) {
        let flag = StopFlags::from_pl_flags(*bits).expect(name);
        assert_eq!((&flag.to_string(), flag.pl_flags()), (name, *bits));
    }
    let all = StopFlags::all();
    assert_eq!(StopFlags::from_pl_flags(all.pl_flags()), Some(all));
    assert_eq!(StopFlags::from_pl_flags(0x1000), None);
    assert_eq!(StopFlags::from_pl_flags(1), None);
}
