//! A debugger in Rust, by FreeBSD's numbers: its target stops for each of its signals, and another thread counts what it is
//! told. With `--cfg race` it waits for that thread only once.
use std::os::raw::{c_char, c_int};
use std::sync::mpsc::{channel, Receiver};
use std::sync::{Arc, Condvar, Mutex};
use std::thread;
use std::time::{Duration, Instant};

const PT_TRACE_ME: c_int = 0;
const PT_CONTINUE: c_int = 7;
const SIGUSR1: c_int = 30; // FreeBSD's
const SIGSTOP: c_int = 17;
const ENDS: c_int = 7;

extern "C" {
    fn fork() -> c_int;
    fn getpid() -> c_int;
    fn kill(pid: c_int, signal: c_int) -> c_int;
    fn raise(signal: c_int) -> c_int;
    fn waitpid(pid: c_int, status: *mut c_int, options: c_int) -> c_int;
    fn ptrace(request: c_int, pid: c_int, address: *mut c_char, data: c_int) -> c_int;
    fn _exit(status: c_int) -> !;
}

#[derive(Debug, PartialEq)]
enum Event {
    Stopped(c_int),
    Exited(c_int),
}

fn wait_for(pid: c_int) -> Event {
    let mut status = 0;
    assert_eq!(unsafe { waitpid(pid, &mut status, 0) }, pid);
    if status & 0xff == 0x7f { Event::Stopped(status >> 8 & 0xff) } else { Event::Exited(status >> 8 & 0xff) }
}

fn go_on(pid: c_int) {
    assert_eq!(unsafe { ptrace(PT_CONTINUE, pid, 1 as *mut c_char, 0) }, 0);
}

/// The target stops on its own, and then by two signals.
fn target() -> ! {
    unsafe {
        if ptrace(PT_TRACE_ME, 0, std::ptr::null_mut(), 0) != 0 || kill(getpid(), SIGSTOP) != 0 {
            _exit(1);
        }
        raise(SIGUSR1);
        raise(SIGUSR1);
        _exit(ENDS)
    }
}

fn count(events: Receiver<Event>, done: Arc<(Mutex<usize>, Condvar)>) -> Vec<Event> {
    let mut seen = Vec::new();
    for event in events {
        seen.push(event);
        *done.0.lock().unwrap() += 1;
        done.1.notify_one();
    }
    seen
}

fn main() {
    let pid = unsafe { fork() };
    assert!(pid >= 0);
    if pid == 0 {
        target();
    }
    let began = Instant::now();
    let (tell, events) = channel();
    let done = Arc::new((Mutex::new(0), Condvar::new()));
    let counter = {
        let done = done.clone();
        thread::spawn(move || count(events, done))
    };
    loop {
        let event = wait_for(pid);
        let over = matches!(event, Event::Exited(_));
        tell.send(event).unwrap();
        if over {
            break;
        }
        go_on(pid);
    }
    drop(tell);
    let mut all = done.0.lock().unwrap();
    while *all < 4 {
        all = done.1.wait(all).unwrap();
        if cfg!(race) {
            break;
        }
    }
    assert_eq!(*all, 4);
    drop(all);
    let seen = counter.join().unwrap();
    assert_eq!(seen, [Event::Stopped(SIGSTOP), Event::Stopped(SIGUSR1), Event::Stopped(SIGUSR1), Event::Exited(ENDS)]);
    thread::sleep(Duration::from_secs(3600)); // virtual
    assert!(began.elapsed() >= Duration::from_secs(3599));
    println!("4 events");
}
