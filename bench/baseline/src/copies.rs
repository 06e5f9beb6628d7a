//! Copies of tables: of rows that there are, and not of those that have gone.

use crate::rows::{NOBODY, NO_LWP};
use crate::tables::{Table, Users};

impl Users {
    /// Becomes as others are, with the memory that it has.
    pub fn become_as(&mut self, others: &Users) {
        self.kills_tracees = others.kills_tracees;
        let mut left = self.begun | others.begun;
        while left != 0 {
            self.take_user(others, left.trailing_zeros() as u8);
            left &= left - 1;
        }
    }

    /// Takes over what one user has.
    pub fn take_user(&mut self, others: &Users, user: u8) {
        let place = user as usize % 64;
        let bit = 1 << place;
        self.begun = self.begun & !bit | others.begun & bit;
        match &others.tables[place] {
            Some(table) => self.tables[place].get_or_insert_with(Table::unused).become_as(table),
            None => self.tables[place] = None,
        }
    }
}

impl Table {
    fn become_as(&mut self, other: &Table) {
        self.forget_slots();
        self.front = other.front;
        self.pid_slots.use_as_many(&other.pid_slots, NOBODY);
        self.tid_slots.use_as_many(&other.tid_slots, NO_LWP);
        other.each_process(|p| {
            let row = other.processes[p];
            self.pid_slots.replace(row.place, p);
            self.processes[p] = row;
            other.each_lwp(p, u32::MAX, |l| {
                let row = other.lwps[l];
                self.tid_slots.replace(row.place, l);
                self.lwps[l] = row;
            });
        });
        self.link_free_slots(other);
        if !(self.handlers.is_empty() && other.handlers.is_empty()) {
            self.handlers.clone_from(&other.handlers);
        }
    }

    /// No number has a slot.
    fn forget_slots(&mut self) {
        let mut from = 0;
        while let Some(p) = self.next_process(from) {
            let row = &self.processes[p];
            self.pid_slots.replace(row.place, NOBODY);
            from = row.place + 1;
            let mut l = row.first;
            while l != NO_LWP {
                let row = &self.lwps[l];
                self.tid_slots.replace(row.place, NO_LWP);
                l = row.next;
            }
        }
    }

    /// Joins the slots that are free as another table does.
    fn link_free_slots(&mut self, other: &Table) {
        let mut p = other.front.free_process;
        while p != NOBODY {
            self.processes[p] = other.processes[p];
            p = self.processes[p].child_links.after;
        }
        let mut l = other.front.free_lwp;
        while l != NO_LWP {
            self.lwps[l] = other.lwps[l];
            l = self.lwps[l].next;
        }
    }
}
