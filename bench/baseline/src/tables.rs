//! A user's rows: found by number through arrays, and in order through bits and links.

use crate::bytes::{lwp_text, Head, Texts};
use crate::names::Signals;
use crate::rows::{
    Due, Handler, Lwp, LwpSlot, Lwps, Mode, Process, ProcessSlot, Processes, Rule, State, NEW_LWP, NEW_PROCESS, NOBODY,
    NO_LWP, UNLINKED,
};
use crate::slots::Slots;

const PIDS: usize = 1000;
const TIDS: usize = 4000;
const MOST_PROCESSES: u16 = 250;
const MOST_LWPS: u16 = 1000;
const MOST_HANDLERS: usize = 64;

/// A set of places of processes.
#[derive(Clone, Copy)]
pub struct Places {
    words: [u64; 16],
    /// The words that aren't 0.
    filled: u16,
}

impl Places {
    #[inline(always)]
    fn add(&mut self, place: u16) {
        let index = place / 64 % 16;
        self.words[index as usize] |= 1 << (place % 64);
        self.filled |= 1 << index;
    }

    #[inline(always)]
    fn remove(&mut self, place: u16) {
        let index = place / 64 % 16;
        let word = &mut self.words[index as usize];
        *word &= !(1 << (place % 64));
        if *word == 0 {
            self.filled &= !(1 << index);
        }
    }

    /// Each one, by rising place.
    #[inline(always)]
    fn each(&self, mut each: impl FnMut(u16)) {
        let mut filled = self.filled;
        while filled != 0 {
            let index = filled.trailing_zeros() as u16 % 16;
            filled &= filled - 1;
            let mut left = self.words[index as usize];
            while left != 0 {
                each(index * 64 + left.trailing_zeros() as u16);
                left &= left - 1;
            }
        }
    }

    /// The first one at or after this place.
    #[inline(always)]
    fn next(&self, from: u16) -> Option<u16> {
        let index = from / 64 % 16;
        let rest = self.words[index as usize] >> (from % 64);
        if rest != 0 {
            return Some(from + rest.trailing_zeros() as u16);
        }
        let later = self.filled & (!1 << index);
        if later == 0 {
            return None;
        }
        let index = later.trailing_zeros() as u16 % 16;
        Some(index * 64 + self.words[index as usize].trailing_zeros() as u16)
    }
}

/// What a table has beside rows and their slots.
#[derive(Clone, Copy)]
pub struct Front {
    pub head: Head,
    pub texts: Texts,
    pub kills_tracees: bool,
    first_pid: u32,
    first_tid: u32,
    next_pid: u16,
    next_tid: u16,
    process_count: u16,
    lwp_count: u16,
    /// Slots up to these have been used; those that are free again are joined by links.
    used_processes: u8,
    used_lwps: u16,
    pub free_process: ProcessSlot,
    pub free_lwp: LwpSlot,
    pids: Places,
    /// Processes that a wait may report.
    news: Places,
}

/// A user's rows.
pub struct Table {
    pub front: Front,
    pub pid_slots: Slots<ProcessSlot, PIDS>,
    pub tid_slots: Slots<LwpSlot, TIDS>,
    pub handlers: Vec<Handler>,
    pub processes: Processes,
    pub lwps: Lwps,
}

impl Table {
    /// A table without a user. Only what is used of its arrays is ever written.
    pub fn unused() -> Box<Table> {
        let mut table = Box::<Table>::new_uninit();
        let room = table.as_mut_ptr();
        // SAFETY: all fields are written, unless their bytes may be any; bytes of 0 are a front
        unsafe {
            (&raw mut (*room).front).write_bytes(0, 1);
            (&raw mut (*room).pid_slots.used).write(0);
            (&raw mut (*room).tid_slots.used).write(0);
            (&raw mut (*room).handlers).write(Vec::new());
            let mut table = table.assume_init();
            table.processes[NOBODY] = NEW_PROCESS;
            table.lwps[NO_LWP] = NEW_LWP;
            table
        }
    }

    /// The table of the user at this place among all.
    #[cold]
    fn of_user(user: u8, kills_tracees: bool) -> Box<Table> {
        let user = u32::from(user);
        let mut table = Table::unused();
        let front = &mut table.front;
        front.first_pid = 1000 * (1 + user);
        front.first_tid = 100_000 + TIDS as u32 * user;
        front.head = Head::of_user(1001 + user);
        front.texts = Texts::of_user(front.first_pid);
        front.kills_tracees = kills_tracees;
        table
    }

    pub fn process_count(&self) -> u16 {
        self.front.process_count
    }

    #[inline]
    pub fn has_room(&self, for_process: bool) -> bool {
        !(for_process && self.front.process_count >= MOST_PROCESSES) && self.front.lwp_count < MOST_LWPS
    }

    #[inline(always)]
    pub fn find(&self, number: u32) -> Option<ProcessSlot> {
        let place = number.wrapping_sub(self.front.first_pid);
        let slot = self.pid_slots.get(place, NOBODY);
        (slot != NOBODY).then_some(slot)
    }

    #[inline(always)]
    pub fn find_lwp(&self, number: u32) -> Option<LwpSlot> {
        let place = number.wrapping_sub(self.front.first_tid);
        let slot = self.tid_slots.get(place, NO_LWP);
        (slot != NO_LWP).then_some(slot)
    }

    /// The first process from this place on.
    #[inline(always)]
    pub fn next_process(&self, from: u16) -> Option<ProcessSlot> {
        Some(self.pid_slots.of_used(self.front.pids.next(from)?))
    }

    /// The first process from this place on that a wait may report.
    #[inline(always)]
    pub fn next_news(&self, from: u16) -> Option<ProcessSlot> {
        Some(self.pid_slots.of_used(self.front.news.next(from)?))
    }

    pub fn pid(&self, p: ProcessSlot) -> u32 {
        self.front.first_pid + u32::from(self.processes[p].place)
    }

    pub fn tid(&self, l: LwpSlot) -> u32 {
        self.front.first_tid + u32::from(self.lwps[l].place)
    }

    /// Each process, by rising number.
    #[inline(always)]
    pub fn each_process(&self, mut each: impl FnMut(ProcessSlot)) {
        self.front.pids.each(|place| each(self.pid_slots.of_used(place)));
    }

    /// The same, while the table changes, but not which processes there are.
    #[inline(always)]
    pub fn change_each_process(&mut self, mut each: impl FnMut(&mut Table, ProcessSlot)) {
        let pids = self.front.pids;
        pids.each(|place| each(self, self.pid_slots.of_used(place)));
    }

    /// The first LWPs of a process, in order of birth.
    #[inline]
    pub fn each_lwp(&self, p: ProcessSlot, most: u32, mut each: impl FnMut(LwpSlot)) {
        let mut l = self.processes[p].first;
        let mut left = most;
        while l != NO_LWP && left > 0 {
            each(l);
            l = self.lwps[l].next;
            left -= 1;
        }
    }

    /// Whether its process is in a stop that this LWP reports.
    pub fn reports(&self, l: LwpSlot) -> bool {
        let process = self.lwps[l].process;
        matches!(self.processes[process].state, State::Trace { lwp: stopped, .. } if stopped == l)
    }

    /// Notes whether a wait may have something to report of a process.
    #[inline]
    pub fn note(&mut self, p: ProcessSlot) {
        let row = &self.processes[p];
        let has_news = match row.state {
            State::Run => row.continued,
            State::Trace { seen, .. } | State::Job { seen, .. } => !seen,
            State::Zombie { .. } => true,
        };
        self.set_news(p, has_news);
    }

    #[inline(always)]
    pub fn set_news(&mut self, p: ProcessSlot, has_news: bool) {
        let place = self.processes[p].place;
        if has_news {
            self.front.news.add(place);
        } else {
            self.front.news.remove(place);
        }
    }

    /// A new process without LWPs, if there is room for it.
    pub fn add_process(&mut self, parent: ProcessSlot) -> ProcessSlot {
        let mut p = self.front.free_process;
        if p == NOBODY {
            self.front.used_processes += 1;
            p = ProcessSlot(self.front.used_processes);
        } else {
            self.front.free_process = self.processes[p].child_links.after;
        }
        let place = self.pid_slots.add(self.front.next_pid, p, NOBODY);
        self.front.next_pid = Slots::<ProcessSlot, PIDS>::after(place);
        self.front.process_count += 1;
        self.front.pids.add(place);
        self.processes[p] = Process {
            place,
            text: self.front.texts.of_process(place),
            ..NEW_PROCESS
        };
        self.set_parent(p, parent);
        p
    }

    /// A new LWP of a process, if there is room for it.
    pub fn add_lwp(&mut self, p: ProcessSlot, blocked: Signals, due: Due) -> LwpSlot {
        let mut l = self.front.free_lwp;
        if l == NO_LWP {
            self.front.used_lwps += 1;
            l = LwpSlot(self.front.used_lwps);
        } else {
            self.front.free_lwp = self.lwps[l].next;
        }
        let place = self.tid_slots.add(self.front.next_tid, l, NO_LWP);
        self.front.next_tid = Slots::<LwpSlot, TIDS>::after(place);
        self.front.lwp_count += 1;
        let process = &mut self.processes[p];
        self.lwps[l] = Lwp {
            place,
            text: lwp_text(self.front.first_tid + u32::from(place)),
            process: p,
            due,
            blocked,
            prev: process.last,
            ..NEW_LWP
        };
        process.lwps += 1;
        process.odd |= due != Due::Nothing;
        if process.last == NO_LWP {
            process.first = l;
        } else {
            self.lwps[process.last].next = l;
        }
        process.last = l;
        l
    }

    pub fn remove_lwp(&mut self, l: LwpSlot) {
        let Lwp {
            place,
            process,
            next,
            prev,
            ..
        } = self.lwps[l];
        let process = &mut self.processes[process];
        process.lwps -= 1;
        if process.stepping == l {
            process.stepping = NO_LWP;
        }
        if prev == NO_LWP {
            process.first = next;
        } else {
            self.lwps[prev].next = next;
        }
        if next == NO_LWP {
            process.last = prev;
        } else {
            self.lwps[next].prev = prev;
        }
        self.tid_slots.replace(place, NO_LWP);
        let lwp = &mut self.lwps[l];
        lwp.mode = Mode::User;
        lwp.next = self.front.free_lwp;
        self.front.free_lwp = l;
        self.front.lwp_count -= 1;
    }

    /// Removes a process that has no LWP.
    pub fn remove_process(&mut self, p: ProcessSlot) {
        self.set_tracer(p, NOBODY);
        self.set_parent(p, NOBODY);
        let place = self.processes[p].place;
        self.front.pids.remove(place);
        self.front.news.remove(place);
        self.pid_slots.replace(place, NOBODY);
        self.processes[p].child_links.after = self.front.free_process;
        self.front.free_process = p;
        self.front.process_count -= 1;
    }

    pub fn set_parent(&mut self, p: ProcessSlot, parent: ProcessSlot) {
        let Process {
            parent: before,
            child_links: links,
            ..
        } = self.processes[p];
        if before != NOBODY {
            if links.before == NOBODY {
                self.processes[before].children = links.after;
            } else {
                self.processes[links.before].child_links.after = links.after;
            }
            self.processes[links.after].child_links.before = links.before;
        }
        let mut links = UNLINKED;
        if parent != NOBODY {
            links.after = std::mem::replace(&mut self.processes[parent].children, p);
            self.processes[links.after].child_links.before = p;
        }
        let row = &mut self.processes[p];
        row.parent = parent;
        row.child_links = links;
    }

    pub fn set_tracer(&mut self, p: ProcessSlot, tracer: ProcessSlot) {
        let Process {
            tracer: before,
            tracee_links: links,
            ..
        } = self.processes[p];
        if before != NOBODY {
            if links.before == NOBODY {
                self.processes[before].tracees = links.after;
            } else {
                self.processes[links.before].tracee_links.after = links.after;
            }
            self.processes[links.after].tracee_links.before = links.before;
        }
        let mut links = UNLINKED;
        if tracer != NOBODY {
            links.after = std::mem::replace(&mut self.processes[tracer].tracees, p);
            self.processes[links.after].tracee_links.before = p;
        }
        let row = &mut self.processes[p];
        row.tracer = tracer;
        row.tracee_links = links;
    }

    /// The other tracee of the same debugger that follows this one.
    pub fn next_tracee(&self, p: ProcessSlot) -> ProcessSlot {
        self.processes[p].tracee_links.after
    }

    /// Adds a handler of a policy, the rules from `first` to before `end`, if there is room for it.
    pub fn add_handler(&mut self, debugger: ProcessSlot, first: u32, end: u32, rules: &[Rule]) -> Option<()> {
        if self.handlers.len() == MOST_HANDLERS {
            return None;
        }
        let policy = &rules[first as usize..end as usize];
        self.handlers.push(Handler {
            debugger,
            first,
            end,
            signals: policy.iter().fold(0, |set, rule| set | rule.signals()),
            flags: policy.iter().fold(!0, |flags, rule| flags & rule.flags),
        });
        self.processes[debugger].handlers += 1;
        Some(())
    }

    pub fn remove_handlers(&mut self, debugger: ProcessSlot) {
        self.handlers.retain(|handler| handler.debugger != debugger);
        self.processes[debugger].handlers = 0;
    }
}

/// The tables of all users.
pub struct Users {
    pub kills_tracees: bool,
    /// Each from the user's first step on.
    pub tables: [Option<Box<Table>>; 64],
    /// Which ones there are.
    pub begun: u64,
}

impl Users {
    pub fn new(kills_tracees: bool) -> Users {
        Users {
            kills_tracees,
            tables: [const { None }; 64],
            begun: 0,
        }
    }

    /// The table of the user at this place among all.
    #[inline(always)]
    pub fn table(&mut self, user: u8) -> &mut Table {
        let table = &mut self.tables[user as usize % 64];
        if table.is_none() {
            self.begun |= 1 << user;
        }
        table.get_or_insert_with(|| Table::of_user(user, self.kills_tracees))
    }
}
