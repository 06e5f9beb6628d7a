//! Enums with FreeBSD's numbers: signals, errors, dispositions.

use std::fmt;

/// Defines an enum of names with numbers, with `ALL`, `number`, `from_number` and `name`.
macro_rules! numbered {
    ($(#[$meta:meta])* $name:ident { $($(#[$item_meta:meta])* $item:ident = $number:literal,)+ }) => {
        $(#[$meta])*
        #[derive(Clone, Copy, Debug, PartialEq, Eq, PartialOrd, Ord, Hash)]
        #[repr(u32)]
        pub enum $name {
            $($(#[$item_meta])* #[allow(missing_docs)] $item = $number,)+
        }

        impl $name {
            /// All of them, by their numbers.
            pub const ALL: &'static [$name] = &[$($name::$item,)+];

            /// FreeBSD's number.
            pub const fn number(self) -> u32 {
                self as u32
            }

            /// The one with FreeBSD's number.
            pub const fn from_number(number: u32) -> Option<$name> {
                match number {
                    $($number => Some($name::$item),)+
                    _ => None,
                }
            }

            /// Its name in FreeBSD's headers.
            pub const fn name(self) -> &'static str {
                match self {
                    $($name::$item => stringify!($item),)+
                }
            }
        }
    };
}

numbered! {
    /// A signal, with the number of FreeBSD's `<sys/signal.h>`. Linux has other numbers for many of them.
    Signal {
        // tools/format signals
        SIGHUP = 1,
        SIGINT = 2,
        SIGQUIT = 3,
        SIGILL = 4,
        SIGTRAP = 5,
        SIGABRT = 6,
        SIGEMT = 7,
        SIGFPE = 8,
        SIGKILL = 9,
        SIGBUS = 10,
        SIGSEGV = 11,
        SIGSYS = 12,
        SIGPIPE = 13,
        SIGALRM = 14,
        SIGTERM = 15,
        SIGURG = 16,
        SIGSTOP = 17,
        SIGTSTP = 18,
        SIGCONT = 19,
        SIGCHLD = 20,
        SIGTTIN = 21,
        SIGTTOU = 22,
        SIGIO = 23,
        SIGXCPU = 24,
        SIGXFSZ = 25,
        SIGVTALRM = 26,
        SIGPROF = 27,
        SIGWINCH = 28,
        SIGINFO = 29,
        SIGUSR1 = 30,
        SIGUSR2 = 31,
        // end
    }
}

impl fmt::Display for Signal {
    fn fmt(&self, f: &mut fmt::Formatter<'_>) -> fmt::Result {
        f.pad(self.name())
    }
}

numbered! {
    /// Why a call is refused, with the number of FreeBSD's `<errno.h>`.
    Errno {
        // tools/format errors
        EPERM = 1,
        ESRCH = 3,
        ECHILD = 10,
        ENOMEM = 12,
        EBUSY = 16,
        EINVAL = 22,
        EAGAIN = 35,
        // end
    }
}

impl fmt::Display for Errno {
    /// Prints the words of FreeBSD's strerror(3).
    fn fmt(&self, f: &mut fmt::Formatter<'_>) -> fmt::Result {
        f.pad(match self {
            // tools/format words of errors
            Errno::EPERM => "Operation not permitted",
            Errno::ESRCH => "No such process",
            Errno::ECHILD => "No child processes",
            Errno::ENOMEM => "Cannot allocate memory",
            Errno::EBUSY => "Device busy",
            Errno::EINVAL => "Invalid argument",
            Errno::EAGAIN => "Resource temporarily unavailable",
            // end
        })
    }
}
