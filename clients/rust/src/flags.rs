//! Sets of flags, and sets of signals.

use crate::Signal;
use std::fmt;
use std::ops::{BitAnd, BitOr, BitOrAssign, Sub};

/// Defines a set of named flags.
macro_rules! flags {
    ($(#[$meta:meta])* $name:ident { $($(#[$flag_meta:meta])* $flag:ident = $bit:literal,)+ }) => {
        $(#[$meta])*
        #[derive(Clone, Copy, PartialEq, Eq, Hash, Default)]
        pub struct $name(pub(crate) u32);

        impl $name {
            $($(#[$flag_meta])* #[allow(missing_docs)] pub const $flag: $name = $name($bit);)+

            const NAMES: &'static [($name, &'static str)] = &[$(($name::$flag, stringify!($flag)),)+];

            /// No flag.
            pub const fn empty() -> $name {
                $name(0)
            }

            /// All flags.
            pub const fn all() -> $name {
                $name($($bit |)+ 0)
            }

            /// Whether there is no flag.
            pub const fn is_empty(self) -> bool {
                self.0 == 0
            }

            /// Whether these have all of `flags`.
            pub const fn contains(self, flags: $name) -> bool {
                self.0 & flags.0 == flags.0
            }

            /// Whether these have one of `flags`.
            pub const fn intersects(self, flags: $name) -> bool {
                self.0 & flags.0 != 0
            }
        }

        impl BitOr for $name {
            type Output = $name;

            fn bitor(self, other: $name) -> $name {
                $name(self.0 | other.0)
            }
        }

        impl BitOrAssign for $name {
            fn bitor_assign(&mut self, other: $name) {
                self.0 |= other.0;
            }
        }

        impl BitAnd for $name {
            type Output = $name;

            fn bitand(self, other: $name) -> $name {
                $name(self.0 & other.0)
            }
        }

        impl Sub for $name {
            type Output = $name;

            fn sub(self, other: $name) -> $name {
                $name(self.0 & !other.0)
            }
        }

        impl FromIterator<$name> for $name {
            fn from_iter<I: IntoIterator<Item = $name>>(flags: I) -> $name {
                flags.into_iter().fold($name::empty(), $name::bitor)
            }
        }

        impl fmt::Display for $name {
            /// Prints the names joined by `+`, or `none`.
            fn fmt(&self, f: &mut fmt::Formatter<'_>) -> fmt::Result {
                let names = $name::NAMES.iter().filter(|(flag, _)| self.contains(*flag)).map(|(_, name)| *name);
                joined(f, "+", names)
            }
        }

        impl fmt::Debug for $name {
            fn fmt(&self, f: &mut fmt::Formatter<'_>) -> fmt::Result {
                write!(f, concat!(stringify!($name), "({})"), self)
            }
        }
    };
}

/// Prints these with a separator between them, or `none`.
fn joined<T: fmt::Display>(f: &mut fmt::Formatter<'_>, separator: &str, items: impl Iterator<Item = T>) -> fmt::Result {
    let mut between = "";
    for item in items {
        write!(f, "{between}{item}")?;
        between = separator;
    }
    if between.is_empty() {
        f.write_str("none")?;
    }
    Ok(())
}

flags! {
    /// The events that a traced process stops for, as PT_SET_EVENT_MASK of ptrace(2) sets them.
    ///
    /// ```
    /// use tracehost::EventMask;
    ///
    /// let mask = EventMask::PTRACE_FORK | EventMask::PTRACE_SYSCALL;
    /// assert!(mask.contains(EventMask::PTRACE_SCE));
    /// assert_eq!(mask.to_string(), "PTRACE_SCE+PTRACE_SCX+PTRACE_FORK");
    /// assert_eq!(mask.bits(), 0b1110);
    /// ```
    EventMask {
        // tools/format events
        PTRACE_EXEC = 1,
        PTRACE_SCE = 2,
        PTRACE_SCX = 4,
        PTRACE_FORK = 8,
        PTRACE_LWP = 16,
        PTRACE_VFORK = 32,
        // end
    }
}

impl EventMask {
    /// Entries and exits of system calls.
    pub const PTRACE_SYSCALL: EventMask = EventMask(2 | 4);

    /// The mask as FreeBSD's `<sys/ptrace.h>` has it.
    pub const fn bits(self) -> u32 {
        self.0
    }

    /// The mask with these bits of FreeBSD's; `None` if one of them has no name.
    pub const fn from_bits(bits: u32) -> Option<EventMask> {
        if bits & !EventMask::all().0 == 0 {
            Some(EventMask(bits))
        } else {
            None
        }
    }
}

flags! {
    /// What a stop is about, as `pl_flags` of ptrace(2).
    ///
    /// ```
    /// use tracehost::StopFlags;
    ///
    /// let flags = StopFlags::PL_FLAG_SCX | StopFlags::PL_FLAG_EXEC;
    /// assert_eq!(flags.to_string(), "PL_FLAG_SCX+PL_FLAG_EXEC");
    /// assert_eq!(flags.pl_flags(), 0x18);
    /// assert_eq!(StopFlags::from_pl_flags(0x18), Some(flags));
    /// ```
    StopFlags {
        // tools/format stop flags
        PL_FLAG_SCE = 1,
        PL_FLAG_SCX = 2,
        PL_FLAG_EXEC = 4,
        PL_FLAG_FORKED = 8,
        PL_FLAG_CHILD = 16,
        PL_FLAG_BORN = 32,
        PL_FLAG_EXITED = 64,
        PL_FLAG_VFORKED = 128,
        PL_FLAG_VFORK_DONE = 256,
        // end
    }
}

impl StopFlags {
    /// FreeBSD's bits, in the order of the flags.
    // tools/format bits of stop flags
    const PL_FLAGS: [u32; 9] = [0x0004, 0x0008, 0x0010, 0x0040, 0x0080, 0x0100, 0x0200, 0x0400, 0x0800];
    // end

    /// The flags as FreeBSD's `<sys/ptrace.h>` has them.
    pub fn pl_flags(self) -> u32 {
        let bits = StopFlags::PL_FLAGS.iter().enumerate();
        bits.filter(|(place, _)| self.0 >> place & 1 == 1)
            .fold(0, |all, (_, bit)| all | bit)
    }

    /// The flags with these bits of FreeBSD's; `None` if one of them is none of the model's.
    pub fn from_pl_flags(pl_flags: u32) -> Option<StopFlags> {
        let bits = StopFlags::PL_FLAGS.iter().enumerate();
        let flags = StopFlags(
            bits.filter(|(_, bit)| pl_flags & **bit != 0)
                .fold(0, |all, (place, _)| all | 1 << place),
        );
        (flags.pl_flags() == pl_flags).then_some(flags)
    }
}

flags! {
    /// Options of wait4(2). No wait blocks, so that WNOHANG changes nothing.
    WaitOptions {
        // tools/format options
        WNOHANG = 1,
        WUNTRACED = 2,
        WCONTINUED = 4,
        // end
    }
}

/// A set of signals.
///
/// ```
/// use tracehost::{Signal, SignalSet};
///
/// let set: SignalSet = [Signal::SIGUSR1, Signal::SIGTRAP].into_iter().collect();
/// assert!(set.contains(Signal::SIGUSR1));
/// assert_eq!(set.to_string(), "5,30");
/// ```
#[derive(Clone, Copy, PartialEq, Eq, Hash, Default)]
pub struct SignalSet(pub(crate) u32);

impl SignalSet {
    /// No signal.
    pub const fn empty() -> SignalSet {
        SignalSet(0)
    }

    /// All signals.
    pub const fn all() -> SignalSet {
        SignalSet(u32::MAX >> 1)
    }

    /// Whether there is no signal.
    pub const fn is_empty(self) -> bool {
        self.0 == 0
    }

    /// Whether the signal is one of them.
    pub const fn contains(self, signal: Signal) -> bool {
        self.0 & SignalSet::bit(signal) != 0
    }

    /// Adds a signal.
    pub fn insert(&mut self, signal: Signal) {
        self.0 |= SignalSet::bit(signal);
    }

    /// The signals by their numbers.
    pub fn iter(self) -> impl Iterator<Item = Signal> {
        Signal::ALL.iter().copied().filter(move |signal| self.contains(*signal))
    }

    /// Signal n is bit n - 1.
    const fn bit(signal: Signal) -> u32 {
        1 << (signal.number() - 1)
    }
}

impl FromIterator<Signal> for SignalSet {
    fn from_iter<I: IntoIterator<Item = Signal>>(signals: I) -> SignalSet {
        let mut set = SignalSet::empty();
        set.extend(signals);
        set
    }
}

impl Extend<Signal> for SignalSet {
    fn extend<I: IntoIterator<Item = Signal>>(&mut self, signals: I) {
        signals.into_iter().for_each(|signal| self.insert(signal));
    }
}

impl fmt::Display for SignalSet {
    /// Prints the numbers joined by `,`, or `none`.
    fn fmt(&self, f: &mut fmt::Formatter<'_>) -> fmt::Result {
        joined(f, ",", self.iter().map(Signal::number))
    }
}

impl fmt::Debug for SignalSet {
    fn fmt(&self, f: &mut fmt::Formatter<'_>) -> fmt::Result {
        f.debug_set().entries(self.iter()).finish()
    }
}
