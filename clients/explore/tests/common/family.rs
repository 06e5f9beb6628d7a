//! A debugger and its equal children, searched with and without exchanges.
#![allow(dead_code)] // each test uses some of it

use tracehost::{Act, Call, Caller, Error, New, Reply, Request, Session};
use tracehost_explore::{explore, Error as Why, Found, Model, Options, Process, Script};

pub const USER: u32 = 1001;
pub const AT_HAND: usize = 0;

pub fn options(symmetric: bool, threads: usize) -> Options {
    Options {
        threads,
        symmetric,
        ..Options::default()
    }
}

pub fn plain(model: &Model) -> Found<'_> {
    explore(model, &options(false, 1)).expect("a search")
}

/// What the search with exchanges has found, or why it was refused.
pub fn with_exchanges(model: &Model) -> Result<Found<'_>, String> {
    match explore(model, &options(true, 1)) {
        Ok(found) => Ok(found),
        Err(Why::Model(why)) => Err(why),
        Err(why) => panic!("{why}"),
    }
}

pub fn refusal(model: &Model) -> String {
    let why = with_exchanges(model)
        .map(|found| found.to_string())
        .expect_err("a mistake");
    let third = explore(model, &options(true, 3)).map(|found| found.to_string());
    assert_eq!(third.map_err(|why| why.to_string()), Err(why.clone()));
    why
}

fn fork(host: &mut Session, parent: New) -> Result<New, Error> {
    host.turn(USER, parent.lwp, Act::Enter(Call::Fork))?;
    match host.turn(USER, parent.lwp, Act::Leave)? {
        Reply::New(child) => Ok(child),
        reply => unreachable!("{reply}"),
    }
}

type Text = dyn Fn(&mut Script, &[New], usize) + Send + Sync;

/// A debugger and its children, which are equal. Each has the text of its own place: 0 is the debugger's.
pub fn family(count: usize, traced: bool, text: impl Fn(&mut Script, &[New], usize) + Send + Sync + 'static) -> Model {
    let text: Box<Text> = Box::new(text);
    Model::new("family", move |host| {
        let mut all = vec![host.spawn(USER)?];
        for _ in 0..count {
            let child = fork(host, all[0])?;
            let caller = Caller {
                user: USER,
                pid: child.pid,
            };
            if traced {
                host.ptrace(caller, Request::TraceMe, 0)?;
            }
            all.push(child);
        }
        let scripts = all.iter().enumerate().map(|(place, own)| {
            let name = if place == 0 {
                "debugger".to_owned()
            } else {
                format!("child {}", own.pid)
            };
            let mut script = Script::new(name, USER, *own);
            if place > 0 {
                script.exchange(1);
            }
            text(&mut script, &all, place);
            Box::new(script) as Box<dyn Process>
        });
        Ok(scripts.collect())
    })
}
