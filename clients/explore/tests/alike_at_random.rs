//! Random models with equal processes: with exchanges no search passes that fails without.

mod common;
#[path = "common/family.rs"]
mod family;

use common::Random;
use family::{family, plain, with_exchanges, AT_HAND};
use tracehost::{Act, Call, Error, New, Reply, Request, Signal, WaitOptions, WaitStatus, Which};
use tracehost_explore::{Go, Model, Place, Script};

/// A line of a random script. Numbers are of a child, by its place; those at hand are what a wait has reported.
#[derive(Clone, Copy)]
enum Line {
    Compute,
    Raise(Signal),
    Exit,
    Flag,
    OnceFlag,
    WaitAny,
    PollAny,
    Poll(usize),
    Kill(usize, Signal),
    KillNext(Signal),
    ContinueAtHand(Option<Signal>),
    AttachAtHand,
    Attach(usize),
    SkipIfAtHand(usize),
    SkipIfSome,
    FailIfSignaled,
}

fn signal(random: &mut Random) -> Signal {
    random.one_of(&[Signal::SIGUSR1, Signal::SIGSTOP, Signal::SIGCONT, Signal::SIGKILL])
}

fn childs_line(random: &mut Random) -> Line {
    match random.below(12) {
        0..=2 => Line::Compute,
        3..=5 => Line::Raise(signal(random)),
        6 => Line::Exit,
        7 | 8 => Line::Flag,
        9 => Line::OnceFlag,
        _ => Line::KillNext(signal(random)),
    }
}

fn debuggers_line(random: &mut Random, count: usize, names: bool) -> Line {
    let child = 1 + random.below(count as u32) as usize;
    match random.below(if names { 15 } else { 11 }) {
        0 | 1 => Line::WaitAny,
        2..=4 => Line::PollAny,
        5 => Line::ContinueAtHand(None),
        6 => Line::ContinueAtHand(Some(signal(random))),
        7 => Line::AttachAtHand,
        8 => Line::SkipIfSome,
        9 => Line::FailIfSignaled,
        10 => Line::OnceFlag,
        11 => Line::Poll(child),
        12 => Line::Kill(child, signal(random)),
        13 => Line::Attach(child),
        _ => Line::SkipIfAtHand(child),
    }
}

const SKIP: usize = 0;
const SIGNALED: usize = 1;

/// Writes the line. Of a line that is to be skipped nothing is done.
fn write(script: &mut Script, all: &[New], place: usize, line: Line) {
    let remember = |place: &mut Place, answer: &Result<Reply, Error>| {
        place.numbers[AT_HAND] = 0;
        if let Ok(Reply::Status { pid, status }) = answer {
            place.numbers[AT_HAND] = *pid;
            place.bytes[SIGNALED] = u8::from(matches!(status, WaitStatus::Signaled(Signal::SIGUSR1)));
        }
        Ok(Go::On)
    };
    match line {
        Line::Compute => script.act(Act::Compute),
        Line::Raise(signal) => script.raise(signal),
        Line::Exit => script.call(Call::Exit(2)),
        Line::Flag => {
            script.act(Act::Compute);
            script.also(|memory| memory[0] = memory[0].min(2) + 1);
        }
        Line::OnceFlag => {
            script.act(Act::Compute);
            script.once(0, 1);
        }
        Line::WaitAny => script.wait_for(Which::Any, WaitOptions::empty(), remember),
        Line::PollAny => script.poll(Which::Any, remember),
        Line::Poll(child) => script.poll(Which::Process(all[child].pid), remember),
        Line::Kill(child, signal) => script.kill(all[child].pid, signal),
        Line::KillNext(signal) => script.kill(all[1 + place % (all.len() - 1)].pid, signal),
        Line::ContinueAtHand(signal) => {
            script.ptrace_then(
                Request::Continue(signal),
                |place| place.numbers[AT_HAND],
                |_, _| Ok(Go::On),
            );
        }
        Line::AttachAtHand => script.ptrace_then(Request::Attach, |place| place.numbers[AT_HAND], |_, _| Ok(Go::On)),
        Line::Attach(child) => {
            let target = all[child].pid;
            script.ptrace_then(Request::Attach, move |_| target, |_, _| Ok(Go::On));
        }
        Line::SkipIfAtHand(child) => {
            let odd = all[child].pid;
            script.local(move |place| {
                place.bytes[SKIP] = u8::from(place.numbers[AT_HAND] == odd);
                Go::On
            });
            script.jump_if(SKIP, 1, "end");
        }
        Line::SkipIfSome => script.local(|place| {
            if place.numbers[AT_HAND] > 0 {
                Go::To("end")
            } else {
                Go::On
            }
        }),
        Line::FailIfSignaled => {
            script.poll(Which::Any, |place, _| match place.bytes[SIGNALED] {
                1 => Err("signaled".to_owned()),
                _ => Ok(Go::On),
            });
        }
    }
}

fn random_model(random: &mut Random) -> Model {
    let count = 2 + random.below(2) as usize;
    let (names, traced) = (random.below(3) == 0, random.below(2) == 0);
    let childs: Vec<Line> = (0..1 + random.below(3)).map(|_| childs_line(random)).collect();
    let debuggers: Vec<Line> = (0..2 + random.below(3))
        .map(|_| debuggers_line(random, count, names))
        .collect();
    family(count, traced, move |script, all, place| {
        let lines = if place == 0 { &debuggers } else { &childs };
        lines.iter().for_each(|line| write(script, all, place, *line));
        script.label("end");
        if place == 0 {
            script.local(|place| {
                *place = Place::default();
                Go::End
            });
        }
    })
}

/// A search with exchanges has the verdict of that without, after as many steps, or is refused.
#[test]
fn no_search_passes_that_fails_without_exchanges() {
    let mut random = Random(0xa11ce);
    let (mut refused, mut passed, mut failed, mut fewer) = (0, 0, 0, 0);
    for _ in 0..600 {
        let model = random_model(&mut random);
        let plain = plain(&model);
        let Ok(found) = with_exchanges(&model) else {
            refused += 1;
            continue;
        };
        assert_eq!(found.passed(), plain.passed(), "{plain}\n{found}");
        assert_eq!(found.trace.len(), plain.trace.len(), "{plain}\n{found}");
        passed += usize::from(plain.passed());
        failed += usize::from(!plain.passed());
        fewer += usize::from(found.states < plain.states);
    }
    assert!(
        refused > 100 && passed > 60 && failed > 60 && fewer > 200,
        "{refused} {passed} {failed} {fewer}"
    );
}
