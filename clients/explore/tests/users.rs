//! Users that are searched by themselves, and together.

mod common;

use common::Random;
use tracehost::{
    Act, Call, Caller, Disposition, Error, New, Reply, Request, Session, Signal, SignalSet, WaitOptions, WaitStatus,
    Which,
};
use tracehost_explore::{explore, Found, Go, Model, Options, Process, Script, Step};

const SIGNALS: [Signal; 5] = [
    Signal::SIGUSR1,
    Signal::SIGTRAP,
    Signal::SIGSTOP,
    Signal::SIGCONT,
    Signal::SIGKILL,
];

/// Calls of a debugger. Errors are passed over.
fn debugger(random: &mut Random, user: u32, own: New, target: New) -> Script {
    let mut script = Script::new("debugger", user, own);
    for _ in 0..2 + random.below(3) {
        let signal = random.one_of(&SIGNALS);
        match random.below(7) {
            0 => script.ptrace_then(Request::Attach, move |_| target.pid, |_, _| Ok(Go::On)),
            1 => script.ptrace_then(Request::Continue(None), move |_| target.pid, |_, _| Ok(Go::On)),
            2 => script.ptrace_then(Request::Detach(Some(signal)), move |_| target.pid, |_, _| Ok(Go::On)),
            3 => script.poll(Which::Any, |_, answer| match answer {
                Ok(Reply::Status {
                    status: WaitStatus::Signaled(Signal::SIGTRAP),
                    ..
                }) => Err("a target was lost".to_owned()),
                _ => Ok(Go::On),
            }),
            4 => script.wait_for(Which::Any, WaitOptions::WUNTRACED, |_, _| Ok(Go::On)),
            5 => script.kill(target.pid, signal),
            _ => script.sigaction(Signal::SIGCHLD, Disposition::Catch),
        }
    }
    script
}

fn target(random: &mut Random, user: u32, own: New) -> Script {
    let mut script = Script::new("target", user, own);
    for _ in 0..1 + random.below(2) {
        match random.below(3) {
            0 => script.raise(random.one_of(&SIGNALS[..3])),
            1 => script.call(Call::Fork),
            _ => script.act(Act::Compute),
        }
    }
    script.call(Call::Exit(0));
    script
}

/// A random pair of scripts for each of these users.
fn world(host: &mut Session, seed: u64, users: &[u32]) -> Result<Vec<Box<dyn Process>>, Error> {
    let mut processes: Vec<Box<dyn Process>> = Vec::new();
    for user in users {
        let mut random = Random(seed << 8 | u64::from(*user) | 1 << 63);
        let own = host.spawn(*user)?;
        host.turn(*user, own.lwp, Act::Enter(Call::Fork))?;
        let Reply::New(child) = host.turn(*user, own.lwp, Act::Leave)? else {
            unreachable!("a fork")
        };
        if random.below(2) == 0 {
            let caller = Caller {
                user: *user,
                pid: child.pid,
            };
            host.ptrace(caller, Request::TraceMe, 0)?;
        }
        processes.push(Box::new(debugger(&mut random, *user, own, child)));
        processes.push(Box::new(target(&mut random, *user, child)));
    }
    Ok(processes)
}

fn model(seed: u64, users: &'static [u32]) -> Model {
    Model::new(format!("pair {seed}"), move |host| world(host, seed, users))
}

fn search(model: &Model, together: bool) -> Found<'_> {
    let options = Options {
        threads: 1,
        together,
        ..Options::default()
    };
    explore(model, &options).expect("a search")
}

fn fails_after(found: &Found) -> Option<usize> {
    assert!(found.is_finished);
    found.failure.as_ref().map(|_| found.trace.len())
}

/// Of 1,000 random pairs the verdict and the length of the shortest trace are those of all interleavings of both users; and
/// if all pass, each state of one user is met with each of the other's.
#[test]
fn users_by_themselves_fail_as_they_do_together() {
    const BOTH: &[u32] = &[1001, 1007];
    let (mut failed, mut deadlocks) = (0, 0);
    for seed in 0..1000 {
        let both = model(seed, BOTH);
        let (apart, together) = (search(&both, false), search(&both, true));
        assert_eq!(fails_after(&apart), fails_after(&together), "seed {seed}");
        match &together.failure {
            None => {
                let each = [&BOTH[..1], &BOTH[1..]].map(|user| search(&model(seed, user), false).states);
                assert_eq!(together.states, each[0] * each[1], "seed {seed}");
                assert_eq!(apart.states, each[0] + each[1], "seed {seed}");
            }
            Some(failure) => {
                failed += 1;
                deadlocks += usize::from(failure.property == "deadlock");
            }
        }
        if seed % 20 == 0 {
            let plain = common::search(&both);
            let (states, transitions) = (together.states, together.transitions);
            assert_eq!(
                (plain.fails_after, plain.states, plain.transitions),
                (fails_after(&together), states, transitions)
            );
        }
    }
    println!("{failed} of 1000 fail, {deadlocks} of them by a deadlock");
    assert!(failed > 200 && failed < 800 && deadlocks > 100 && failed - deadlocks > 10);
}

fn random_step(random: &mut Random, user: u32) -> Step {
    let (first_pid, first_lwp) = (1000 * (user - 1000), 100_000 + 4000 * (user - 1001));
    let pid = |random: &mut Random| first_pid + random.below(4);
    let lwp = first_lwp + random.below(5);
    let caller = Caller { user, pid: pid(random) };
    let signal = random.one_of(&SIGNALS);
    let set: SignalSet = [signal].into_iter().collect();
    let calls = [
        Call::Fork,
        Call::Exec,
        Call::ThrNew,
        Call::Vfork,
        Call::Exit(1),
        Call::Other(4),
    ];
    let acts = [
        Act::Compute,
        Act::Raise(signal),
        Act::Block(set),
        Act::Enter(random.one_of(&calls)),
        Act::Leave,
        Act::Leave,
    ];
    let requests = [
        Request::Attach,
        Request::Continue(Some(signal)),
        Request::Detach(None),
        Request::FollowFork(true),
        Request::Syscall(None),
        Request::LwpInfo,
        Request::TraceMe,
    ];
    let other = pid(random);
    match random.below(10) {
        0 => Step::Spawn(user),
        1..=4 => Step::Turn(user, lwp, random.one_of(&acts)),
        5..=6 => Step::Ptrace(caller, random.one_of(&requests), other),
        7 => Step::Wait4(caller, Which::Any, WaitOptions::WUNTRACED),
        8 => Step::Kill(
            caller,
            random.one_of(&[Which::Any, Which::Process(other)]),
            Some(signal),
        ),
        _ => Step::Sigaction(caller, signal, Disposition::Catch),
    }
}

fn states(session: &Session) -> [Vec<u32>; 2] {
    [1001, 1002].map(|user| {
        let mut numbers = Vec::new();
        session.state(user, &mut numbers).expect("memory");
        numbers
    })
}

/// A million pairs of steps of two users at random states in both orders: the same answers, and the same states of both.
#[test]
fn steps_of_two_users_commute() {
    const PAIRS: usize = 1_000_000;
    let mut random = Random(0x5eed);
    let mut session = Session::new().expect("memory");
    let mut changed = 0;
    for pair in 0..PAIRS {
        if pair % 100 == 0 {
            session = Session::new().expect("memory");
            for user in [1001, 1002, 1001, 1002] {
                session.spawn(user).expect("a process");
            }
        }
        let steps = [random_step(&mut random, 1001), random_step(&mut random, 1002)];
        let mut other = session.try_clone().expect("memory");
        let before = states(&session);
        let in_order = [steps[0].make(&mut session), steps[1].make(&mut session)];
        let second = steps[1].make(&mut other);
        let reversed = [steps[0].make(&mut other), second];
        assert_eq!(in_order, reversed, "{steps:?}");
        let after = states(&session);
        assert_eq!(after, states(&other), "{steps:?}");
        changed += usize::from(after[0] != before[0] && after[1] != before[1]);
    }
    println!("{changed} of {PAIRS} pairs have changed both states");
    assert!(changed > PAIRS / 20);
}
