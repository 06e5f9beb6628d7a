//! The calls of `tracehost.h`, and the only unsafe code of this crate: a [`Handle`] is open from [`Handle::open`] until
//! it is closed or dropped, and is used by one thread at a time. Calls of a closed handle return [`NOT_OPEN`].
#![allow(unsafe_code)]

use std::cell::UnsafeCell;
use std::ffi::{c_char, c_int, c_void, CStr};
use std::fs::File;
use std::io;
use std::os::fd::AsRawFd;
use std::sync::atomic::AtomicU8;

#[cfg(not(all(target_os = "linux", target_pointer_width = "64")))]
compile_error!("the library of tracehost is for 64-bit Linux");

/// The code of a call that was answered.
pub const ANSWERED: u32 = 0;
pub const NOT_OPEN: u32 = 1;
pub const NO_MEMORY: u32 = 2;
pub const INVALID: u32 = 3;
pub const NO_TEXT: u32 = 4;
pub const TOO_MANY: u32 = 5;

// tools/format limits
pub const LAST_PROCESS: u32 = 99_999;
pub const MAX_RULES: usize = 16;
// end

/// `tracehost`
#[repr(C)]
struct Raw {
    session: *mut c_void,
    tag: u64,
}

impl Raw {
    const CLOSED: Raw = Raw {
        session: std::ptr::null_mut(),
        tag: 0,
    };
}

/// Declares a struct of the header, all of whose fields are `uint32_t`.
macro_rules! record {
    ($(#[$meta:meta])* $name:ident { $($field:ident,)+ }) => {
        $(#[$meta])*
        #[repr(C)]
        #[derive(Clone, Copy, Debug, Default)]
        pub struct $name {
            $(pub $field: u32,)+
        }

        #[cfg(test)]
        impl $name {
            const FIELDS: &'static [&'static str] = &[$(stringify!($field),)+];
        }
    };
}

record! {
    /// `tracehost_rule`
    Rule {
        flags,
        signal,
        decision,
        pass,
    }
}

// tools/format structs
record! {
    /// `tracehost_reply`
    Reply {
        kind,
        pid,
        lwp,
        number,
        status,
        signal,
        event,
        flags,
        mask,
        pending,
        child,
        code,
        has_handler,
        handler,
        decision,
        pass,
        error,
        count,
        stop_pid,
    }
}

record! {
    /// `tracehost_process`
    Process {
        pid,
        parent,
        tracer,
        state,
        lwp,
        signal,
        told,
        status,
        continued,
        events,
        pending,
    }
}

record! {
    /// `tracehost_lwp`
    Lwp {
        lwp,
        pid,
        mode,
        call,
        argument,
        vfork_child,
        suspended,
        stepping,
        blocked,
        pending,
        due,
        flags,
        child,
        code,
    }
}
// end

extern "C" {
    fn tracehost_version() -> *const c_char;
    fn tracehost_open(kill_on_debugger_exit: bool, out: *mut Raw) -> u32;
    fn tracehost_close(h: *mut Raw) -> u32;
    fn tracehost_copy(from: *mut Raw, to: *mut Raw) -> u32;
    fn tracehost_copy_over(from: *mut Raw, to: *mut Raw) -> u32;
    fn tracehost_copy_user(from: *mut Raw, to: *mut Raw, user: u32) -> u32;
    fn tracehost_line(
        h: *mut Raw,
        json: bool,
        line: *const u8,
        line_length: usize,
        out: *mut u8,
        out_size: usize,
        length: *mut usize,
    ) -> u32;
    fn tracehost_last_line(h: *mut Raw, json: bool, out: *mut u8, out_size: usize, length: *mut usize) -> u32;
    fn tracehost_last_step(h: *mut Raw, out: *mut u8, out_size: usize, length: *mut usize) -> u32;
    fn tracehost_install(
        h: *mut Raw,
        user: u32,
        caller: u32,
        rules: *const Rule,
        count: usize,
        reply: *mut Reply,
    ) -> u32;
    fn tracehost_numbers(h: *mut Raw, out: *mut u32, size: usize, length: *mut usize) -> u32;
    fn tracehost_view(
        h: *mut Raw,
        user: u32,
        processes: *mut Process,
        processes_size: usize,
        lwps: *mut Lwp,
        lwps_size: usize,
        processes_length: *mut usize,
        lwps_length: *mut usize,
    ) -> u32;
    fn tracehost_state(h: *mut Raw, user: u32, out: *mut u32, size: usize, length: *mut usize) -> u32;
}

/// The errno of a file that would be too long.
pub const EFBIG: i32 = 27;

extern "C" {
    fn flock(file: c_int, operation: c_int) -> c_int;
    fn getrlimit(resource: c_int, limit: *mut [u64; 2]) -> c_int;
    fn clock_gettime(clock: c_int, time: *mut [i64; 2]) -> c_int;
    fn on_exit(function: extern "C" fn(c_int, *mut c_void), argument: *mut c_void) -> c_int;
}

/// The flag of open(2): a symbolic link isn't followed.
pub const O_NOFOLLOW: c_int = 0o400_000;

/// Locks a file while it is open; false if it is locked otherwise.
pub fn lock(file: &File) -> io::Result<bool> {
    const LOCK_EX: c_int = 2;
    const LOCK_NB: c_int = 4;
    // SAFETY: flock(2) takes two numbers, and the file is open.
    if unsafe { flock(file.as_raw_fd(), LOCK_EX | LOCK_NB) } == 0 {
        return Ok(true);
    }
    match io::Error::last_os_error() {
        error if error.kind() == io::ErrorKind::WouldBlock => Ok(false),
        error => Err(error),
    }
}

/// Unlocks a file.
pub fn unlock(file: &File) {
    const LOCK_UN: c_int = 8;
    // SAFETY: as for `lock`.
    unsafe { flock(file.as_raw_fd(), LOCK_UN) };
}

/// The time by which files are changed now, in seconds and nanoseconds.
pub fn time_of_files() -> (i64, i64) {
    const CLOCK_REALTIME_COARSE: c_int = 5;
    let mut time = [0; 2];
    // SAFETY: on 64-bit Linux a struct timespec is two i64.
    unsafe { clock_gettime(CLOCK_REALTIME_COARSE, &mut time) };
    (time[0], time[1])
}

/// From now on the function is called with the program's status when it ends by exit(3).
pub fn call_at_exit(function: extern "C" fn(c_int, *mut c_void)) {
    // SAFETY: the function is there as long as the program, and takes what on_exit(3) gives it.
    unsafe { on_exit(function, std::ptr::null_mut()) };
}

/// The most bytes that a file may get, by RLIMIT_FSIZE of getrlimit(2).
pub fn file_size_limit() -> u64 {
    const RLIMIT_FSIZE: c_int = 1;
    let mut limit = [u64::MAX; 2];
    // SAFETY: on 64-bit Linux a struct rlimit is two u64, the soft limit first, and no limit is the greatest.
    unsafe { getrlimit(RLIMIT_FSIZE, &mut limit) };
    limit[0]
}

/// The version of the library that was linked; empty if it is no text.
pub fn version() -> &'static str {
    // SAFETY: the call takes nothing, and returns a string that stays.
    unsafe { CStr::from_ptr(tracehost_version()) }
        .to_str()
        .unwrap_or_default()
}

/// An open handle. It isn't `Sync`: `UnsafeCell` keeps calls by `&self` on one thread, one after another.
#[derive(Debug)]
pub struct Handle(UnsafeCell<Raw>);

// SAFETY: the library lets a handle be used by any thread, one call at a time. A session has no pointer to the handle,
// nothing of a thread's own, and its memory is malloc's.
unsafe impl Send for Handle {}

impl Handle {
    /// Opens a session; else the code.
    pub fn open(kill_on_debugger_exit: bool) -> Result<Handle, u32> {
        let mut raw = Raw::CLOSED;
        // SAFETY: `raw` is a closed handle that nothing else uses.
        match unsafe { tracehost_open(kill_on_debugger_exit, &mut raw) } {
            ANSWERED => Ok(Handle(UnsafeCell::new(raw))),
            code => Err(code),
        }
    }

    /// Copies the session; else the code.
    pub fn copy(&self) -> Result<Handle, u32> {
        let mut raw = Raw::CLOSED;
        // SAFETY: `raw` is a closed handle that nothing else uses, and no other call is being made.
        match unsafe { tracehost_copy(self.0.get(), &mut raw) } {
            ANSWERED => Ok(Handle(UnsafeCell::new(raw))),
            code => Err(code),
        }
    }

    /// Copies the session over that of another handle. The code.
    pub fn copy_over(&self, to: &mut Handle) -> u32 {
        // SAFETY: no other call is being made on either handle, and they differ, since `to` is borrowed mutably.
        unsafe { tracehost_copy_over(self.0.get(), to.0.get()) }
    }

    /// Copies what one user has over what the user has in the session of another handle. The code.
    pub fn copy_user(&self, to: &mut Handle, user: u32) -> u32 {
        // SAFETY: no other call is being made on either handle, and they differ, since `to` is borrowed mutably.
        unsafe { tracehost_copy_user(self.0.get(), to.0.get(), user) }
    }

    /// Makes the step that the line is. The code, and the length of the answer, whose front `out` has.
    pub fn line(&mut self, json: bool, line: &[u8], out: &mut [u8]) -> (u32, usize) {
        let mut length = 0;
        let (room, size) = (out.as_mut_ptr(), out.len());
        // SAFETY: no other call is being made, and both slices and `length` are disjoint.
        let code = unsafe { tracehost_line(self.0.get(), json, line.as_ptr(), line.len(), room, size, &mut length) };
        (code, length)
    }

    /// The last answer's line, as [`Handle::line`] returns it.
    pub fn last_line(&self, json: bool, out: &mut [u8]) -> (u32, usize) {
        let mut length = 0;
        let (room, size) = (out.as_mut_ptr(), out.len());
        // SAFETY: no other call is being made, and the slice and `length` are disjoint.
        let code = unsafe { tracehost_last_line(self.0.get(), json, room, size, &mut length) };
        (code, length)
    }

    /// The last answer's step, as [`Handle::line`] returns an answer.
    pub fn last_step(&self, out: &mut [u8]) -> (u32, usize) {
        let mut length = 0;
        let (room, size) = (out.as_mut_ptr(), out.len());
        // SAFETY: no other call is being made, and the slice and `length` are disjoint.
        let code = unsafe { tracehost_last_step(self.0.get(), room, size, &mut length) };
        (code, length)
    }

    /// Installs a stop handler. The code, and the reply.
    pub fn install(&mut self, user: u32, caller: u32, rules: &[Rule]) -> (u32, Reply) {
        let mut reply = Reply::default();
        let (first, count) = (rules.as_ptr(), rules.len());
        // SAFETY: no other call is being made, and the slice and `reply` are disjoint.
        let code = unsafe { tracehost_install(self.0.get(), user, caller, first, count, &mut reply) };
        (code, reply)
    }

    /// The numbers of the last answer. The code, and how many there are; `out` has the first of them.
    pub fn numbers(&self, out: &mut [u32]) -> (u32, usize) {
        let mut length = 0;
        let (room, size) = (out.as_mut_ptr(), out.len());
        // SAFETY: no other call is being made, and the slice and `length` are disjoint.
        let code = unsafe { tracehost_numbers(self.0.get(), room, size, &mut length) };
        (code, length)
    }

    /// A user's rows. The code, and how many processes and LWPs there are; the slices have the first of them.
    pub fn view(&self, user: u32, processes: &mut [Process], lwps: &mut [Lwp]) -> (u32, [usize; 2]) {
        let (mut processes_length, mut lwps_length) = (0, 0);
        // SAFETY: no other call is being made, and the slices and lengths are disjoint.
        let code = unsafe {
            tracehost_view(
                self.0.get(),
                user,
                processes.as_mut_ptr(),
                processes.len(),
                lwps.as_mut_ptr(),
                lwps.len(),
                &mut processes_length,
                &mut lwps_length,
            )
        };
        (code, [processes_length, lwps_length])
    }

    /// All that a user sees, as numbers. The code, and how many there are; `out` has the first of them.
    pub fn state(&self, user: u32, out: &mut [u32]) -> (u32, usize) {
        let mut length = 0;
        let (room, size) = (out.as_mut_ptr(), out.len());
        // SAFETY: no other call is being made, and the slice and `length` are disjoint.
        let code = unsafe { tracehost_state(self.0.get(), user, room, size, &mut length) };
        (code, length)
    }

    /// Ends the session.
    pub fn close(&mut self) {
        // SAFETY: no other call is being made, and closing a closed handle does nothing.
        unsafe { tracehost_close(self.0.get()) };
    }
}

impl Drop for Handle {
    fn drop(&mut self) {
        self.close();
    }
}

/// Declares calls that take a user and numbers, and store a reply: they return the code, and the reply.
macro_rules! steps {
    ($($name:ident = $symbol:ident($($argument:ident: $kind:ty),*);)+) => {
        extern "C" {
            $(fn $symbol(h: *mut Raw, user: u32, $($argument: $kind,)* reply: *mut Reply) -> u32;)+
        }

        impl Handle {
            $(pub fn $name(&mut self, user: u32, $($argument: $kind),*) -> (u32, Reply) {
                let mut reply = Reply::default();
                // SAFETY: no other call is being made, and `reply` is nobody else's.
                let code = unsafe { $symbol(self.0.get(), user, $($argument,)* &mut reply) };
                (code, reply)
            })+
        }
    };
}

steps! {
    spawn = tracehost_spawn();
    list = tracehost_list(caller: u32);
    sigaction = tracehost_sigaction(caller: u32, signal: u32, disposition: u32);
    kill = tracehost_kill(caller: u32, which: i64, signal: u32);
    wait4 = tracehost_wait4(caller: u32, which: i64, options: u32);
    handle = tracehost_handle(caller: u32);
    ptrace = tracehost_ptrace(caller: u32, request: u32, target: u32, data: u32);
    turn = tracehost_turn(lwp: u32, act: u32, call: u32, argument: u32);
}

#[allow(clippy::declare_interior_mutable_const)] // each place of the array has a value of its own
const UNSEEN: AtomicU8 = AtomicU8::new(0);
/// The states that a fuzzer tells apart: libFuzzer looks at this section for counters.
#[used] // else its stores are dead
#[link_section = "__libfuzzer_extra_counters"]
pub static SEEN: [AtomicU8; 1 << 13] = [UNSEEN; 1 << 13];

#[cfg(test)]
mod tests {
    use super::*;

    const HEADER: &str = concat!(env!("CARGO_MANIFEST_DIR"), "/../../include/tracehost.h");

    /// The fields of a struct of the header, in their order, without its comments.
    fn fields(header: &str, name: &str) -> Vec<String> {
        let (_, rest) = header.split_once(&format!("typedef struct {name} {{")).expect(name);
        let (body, _) = rest.split_once('}').expect("its end");
        let code = body
            .lines()
            .map(|line| line.split("/*").next().unwrap_or(""))
            .collect::<String>();
        let declarations = code.split(';').map(str::trim).filter(|part| !part.is_empty());
        declarations
            .flat_map(|part| part.strip_prefix("uint32_t").expect("a uint32_t").split(','))
            .map(|field| field.trim().to_string())
            .collect()
    }

    #[test]
    fn records_have_the_fields_of_the_header() {
        let header = std::fs::read_to_string(HEADER).expect("include/tracehost.h");
        assert_eq!(fields(&header, "tracehost_reply"), Reply::FIELDS);
        assert_eq!(fields(&header, "tracehost_rule"), Rule::FIELDS);
        assert_eq!(fields(&header, "tracehost_process"), Process::FIELDS);
        assert_eq!(fields(&header, "tracehost_lwp"), Lwp::FIELDS);
    }

    /// A stop that goes to a handler, with all its fields, the last one of the struct among them.
    #[test]
    fn a_reply_is_stored_in_its_fields() {
        let (user, sigstop, kill, pass_on) = (1001, 17, 4, 2);
        let mut session = Handle::open(true).expect("memory");
        let debugger = session.spawn(user).1.pid;
        let target = session.spawn(user).1;
        assert_eq!(session.ptrace(user, debugger, 10, target.pid, 0).0, ANSWERED);
        let rule = |signal, decision| Rule {
            signal,
            decision,
            ..Rule::default()
        };
        let rules = [rule(5, kill), rule(sigstop, pass_on)];
        assert_eq!(session.install(user, debugger, &rules).0, ANSWERED);
        let (code, reply) = session.handle(user, debugger);
        assert_eq!((code, reply.kind), (ANSWERED, 9));
        assert_eq!(
            (reply.pid, reply.stop_pid, reply.lwp),
            (target.pid, target.pid, target.lwp)
        );
        assert_eq!((reply.status, reply.signal), (sigstop * 256 + 127, sigstop));
        assert_eq!(
            (reply.has_handler, reply.handler, reply.decision, reply.pass),
            (1, 0, pass_on, 0)
        );
        assert_eq!(session.handle(user, debugger).1.stop_pid, 0);
    }
}
