//! Each race is found by a shortest trace, and each remedy passes all interleavings.

mod common;

use common::Came;
use tracehost_explore::models::{Race, ALL, TRACEES};
use tracehost_explore::{explore, Found, Model, Options};

fn options(threads: usize) -> Options {
    Options {
        threads,
        ..Options::default()
    }
}

fn came(found: &Found) -> Came {
    Came {
        fails_after: found.failure.is_some().then_some(found.trace.len()),
        states: found.states,
        transitions: found.transitions,
    }
}

fn searched(model: &Model) -> Came {
    came(&explore(model, &options(1)).expect("a search"))
}

/// As the plain search finds it.
fn is_as_plainly_found(race: &Race, right: bool) -> Came {
    let model = race.model(right, 1, race.size);
    let came = searched(&model);
    assert_eq!(came, common::search(&model), "{}", race.name);
    came
}

#[test]
fn each_race_is_found_by_a_shortest_trace() {
    for race in ALL {
        let came = is_as_plainly_found(race, false);
        assert!(came.fails_after.is_some(), "{}", race.name);
        println!("{:22} fails after {:2} steps", race.name, came.fails_after.unwrap_or(0));
    }
}

#[test]
fn each_remedy_passes_all_interleavings() {
    for race in ALL.iter().chain([&TRACEES]) {
        let came = is_as_plainly_found(race, true);
        assert_eq!(came.fails_after, None, "{}", race.name);
        println!(
            "{:22} {:4} states, {:4} transitions",
            race.name, came.states, came.transitions
        );
    }
}

/// The figures of a model checker in C++ that was written for it.
#[test]
fn figures_of_another_model_checker() {
    let lost_wakeup = Race::named("lost_wakeup").expect("a race");
    assert_eq!(searched(&lost_wakeup.model(false, 1, 2)).fails_after, Some(3));
    let right = searched(&lost_wakeup.model(true, 1, 2));
    assert_eq!((right.states, right.transitions), (122, 179));
    let two = lost_wakeup.model(true, 2, 2);
    let together = Options {
        together: true,
        ..options(2)
    };
    let two = came(&explore(&two, &together).expect("a search"));
    assert_eq!((two.states, two.transitions), (14_884, 43_676));
    let detach = Race::named("stop_lost_at_detach").expect("a race");
    assert_eq!(searched(&detach.model(false, 1, 2)).fails_after, Some(13));
    assert_eq!(searched(&TRACEES.model(true, 1, 4)).states, 34_560);
}

/// With any number of threads, and however few answers and sessions are kept.
#[test]
fn the_same_is_found_by_any_number_of_threads() {
    for (name, right, size) in [
        ("stop_lost_at_detach", true, 3),
        ("stop_lost_at_detach", false, 4),
        ("tracees", true, 3),
        ("lost_wakeup", true, 200),
    ] {
        let model = Race::named(name).expect("a race").model(right, 1, size);
        let first = explore(&model, &options(1)).expect("a search");
        for (threads, answers, sessions) in [
            (2, 1 << 16, 1 << 12),
            (3, 64, 4),
            (5, 1, 1),
            (64, 1 << 10, 64),
            (1, 1 << 10, 16),
            (1, 1, 1),
        ] {
            let options = Options {
                answers,
                sessions,
                ..options(threads)
            };
            let found = explore(&model, &options).expect("a search");
            assert_eq!(came(&found), came(&first), "{name}, {threads} threads");
            assert_eq!(found.trace, first.trace, "{name}, {threads} threads");
            assert_eq!(found.failure, first.failure, "{name}, {threads} threads");
        }
    }
}

/// The limit is of all users.
#[test]
fn as_many_states_as_the_limit_pass() {
    let model = Race::named("lost_wakeup").expect("a race").model(true, 2, 2);
    for (limit, passes) in [(244, true), (243, false), (122, false), (0, false)] {
        let options = Options { limit, ..options(1) };
        let found = explore(&model, &options).expect("a search");
        assert_eq!((found.passed(), found.failure.is_some()), (passes, false), "{limit}");
    }
}

#[test]
fn a_limit_is_no_pass() {
    let model = Race::named("stop_lost_at_detach").expect("a race").model(true, 1, 3);
    for options in [
        Options {
            limit: 1000,
            ..options(2)
        },
        Options {
            memory: 1 << 16,
            ..options(1)
        },
    ] {
        let found = explore(&model, &options).expect("a search");
        assert!(!found.passed() && !found.is_finished && found.failure.is_none());
        assert!(found.to_string().starts_with("not all states were seen"), "{found}");
        assert!(found.states < 4936, "{}", found.states);
    }
}
