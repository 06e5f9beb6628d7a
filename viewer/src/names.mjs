/** Names and numbers of signals, requests, processes and LWPs. */

// tools/format names
export const SIGNALS = [
  "SIG-", "SIGHUP", "SIGINT", "SIGQUIT", "SIGILL", "SIGTRAP", "SIGABRT", "SIGEMT", "SIGFPE", "SIGKILL", "SIGBUS",
  "SIGSEGV", "SIGSYS", "SIGPIPE", "SIGALRM", "SIGTERM", "SIGURG", "SIGSTOP", "SIGTSTP", "SIGCONT", "SIGCHLD",
  "SIGTTIN", "SIGTTOU", "SIGIO", "SIGXCPU", "SIGXFSZ", "SIGVTALRM", "SIGPROF", "SIGWINCH", "SIGINFO", "SIGUSR1",
  "SIGUSR2",
];
export const FIRST_USER = 1001;
export const LAST_USER = 1064;
export const FIRST_PROCESS = 1000;
export const PROCESS_NUMBERS = 1000;
export const LAST_PROCESS = 99999;
export const FIRST_LWP = 100000;
export const LWP_NUMBERS = 4000;
/** The requests that let their target go on. */
export const RESUMES = ["PT_CONTINUE", "PT_STEP", "PT_DETACH", "PT_TO_SCE", "PT_TO_SCX", "PT_SYSCALL"];
// end
export const SIGKILL = SIGNALS.indexOf("SIGKILL");
export const SIGCONT = SIGNALS.indexOf("SIGCONT");

export const signalName = (number) => SIGNALS[number] && number > 0 ? SIGNALS[number] : `signal ${number}`;
