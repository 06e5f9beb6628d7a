//! Processes and threads of Rust's own library: a child with a pipe that ends, one that is killed, one that panics, scoped
//! threads behind a barrier, and a wait that times out.
use std::env;
use std::io::{Read, Write};
use std::process::{Command, Stdio};
use std::sync::atomic::{AtomicUsize, Ordering};
use std::sync::{mpsc, Barrier, Once, RwLock};
use std::thread;
use std::time::Duration;

fn child(how: &str) -> Command {
    let mut command = Command::new(env::current_exe().unwrap());
    command.arg(how);
    command
}

fn answers() {
    let mut asked = child("answer").stdin(Stdio::piped()).stdout(Stdio::piped()).spawn().unwrap();
    asked.stdin.take().unwrap().write_all(b"42").unwrap();
    let answer = asked.wait_with_output().unwrap();
    assert_eq!((answer.stdout.as_slice(), answer.status.code()), (b"<42>".as_slice(), Some(3)));
}

fn is_killed() {
    use std::os::unix::process::ExitStatusExt;
    let mut reads = child("answer").stdin(Stdio::piped()).spawn().unwrap();
    assert!(reads.try_wait().unwrap().is_none());
    reads.kill().unwrap();
    assert_eq!(reads.wait().unwrap().signal(), Some(9));
}

fn panics() {
    let ended = child("panic").stderr(Stdio::piped()).output().unwrap();
    assert_eq!(ended.status.code(), Some(101));
    assert!(String::from_utf8_lossy(&ended.stderr).contains("as was said"));
}

fn threads_meet() {
    const COUNT: usize = 3;
    let (arrived, together, once, all) = (AtomicUsize::new(0), Barrier::new(COUNT), Once::new(), RwLock::new(Vec::new()));
    thread::scope(|scope| {
        for i in 0..COUNT {
            let (arrived, together, once, all) = (&arrived, &together, &once, &all);
            scope.spawn(move || {
                once.call_once(|| all.write().unwrap().push(COUNT));
                arrived.fetch_add(1, Ordering::SeqCst);
                together.wait();
                assert_eq!(arrived.load(Ordering::SeqCst), COUNT);
                all.write().unwrap().push(i);
            });
        }
    });
    let mut found = all.into_inner().unwrap();
    found.sort_unstable();
    assert_eq!(found, [0, 1, 2, COUNT]);
}

fn waits_in_vain() {
    let (tell, told) = mpsc::channel::<()>();
    assert_eq!(told.recv_timeout(Duration::from_secs(60)), Err(mpsc::RecvTimeoutError::Timeout));
    drop(tell);
}

fn main() {
    match env::args().nth(1).as_deref() {
        Some("answer") => {
            let mut text = String::new();
            std::io::stdin().read_to_string(&mut text).unwrap();
            print!("<{text}>");
            std::process::exit(3);
        }
        Some("panic") => panic!("as was said"),
        _ => {
            answers();
            is_killed();
            panics();
            threads_meet();
            waits_in_vain();
            println!("all");
        }
    }
}
