//! A debugger sleeps in pause(2) until SIGCHLD, and then in sigsuspend(2).

use tracehost::{Act, Call, Caller, Disposition, Reply, Request, Session, Signal, SignalSet, WaitStatus, Which};
use tracehost_explore::{explore, Error, Go, Model, Options, Process, Script};

const USER: u32 = 1001;
const NEWS: usize = 0; // what the handler of SIGCHLD sets

fn world(host: &mut Session, right: bool) -> Result<Vec<Box<dyn Process>>, tracehost::Error> {
    let own = host.spawn(USER)?;
    host.turn(USER, own.lwp, Act::Enter(Call::Fork))?;
    let Reply::New(child) = host.turn(USER, own.lwp, Act::Leave)? else {
        unreachable!("a fork")
    };
    let call = |pid| Caller { user: USER, pid };
    host.ptrace(call(child.pid), Request::TraceMe, 0)?;
    host.sigaction(call(own.pid), Signal::SIGCHLD, Disposition::Catch)?;
    let (all, chld) = (SignalSet::empty(), [Signal::SIGCHLD].into_iter().collect());

    let mut target = Script::new("target", USER, child);
    target.raise(Signal::SIGUSR1);
    target.call(Call::Exit(0));

    let mut debugger = Script::new("debugger", USER, own);
    debugger.on_caught(|place, _| place.bytes[NEWS] = 1);
    debugger.label("await");
    if right {
        debugger.act(Act::Block(chld));
    }
    debugger.jump_if(NEWS, 1, "news");
    if right {
        debugger.sigsuspend(all, chld);
    } else {
        debugger.pause();
    }
    debugger.label("news");
    debugger.set(NEWS, 0);
    debugger.poll(Which::Process(child.pid), |_, answer| match answer {
        Ok(Reply::Status {
            status: WaitStatus::Exited(_),
            ..
        }) => Ok(Go::End),
        Ok(Reply::Status { .. }) => Ok(Go::On),
        _ => Ok(Go::To("await")),
    });
    debugger.ptrace(Request::Continue(None), child.pid);
    debugger.jump("await");
    Ok(vec![Box::new(debugger), Box::new(target)])
}

fn main() -> Result<(), Error> {
    for right in [false, true] {
        let model = Model::new("lost wake-up", move |host| world(host, right));
        let found = explore(&model, &Options::default())?;
        println!("{found}");
        if found.failure.is_some() {
            found.save("race.json").expect("files"); // and race.out
        }
    }
    Ok(())
}
