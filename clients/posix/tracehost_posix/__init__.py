"""Runs C programs that `tracehost-cc` made on the model of FreeBSD's process tracing, under schedules of its own.

Each module has one thought:

- `setting`: what all runs of a command have in common, and a schedule to run; `program`: whether a program has the runtime;
- `broker`: the process that runs schedules (broker/); `outcome`: its answers, and the words for them;
- `describe`: who waits in which call, and for whom;
- `pool`: brokers on several processors;
- `search`: many schedules, and the shortest that fails; `many`: a search as a command, `tally`: what its runs come to,
  `ledger`: a file that keeps that, `farm`: workers on other machines;
- `record`: a run as a scenario, and as a schedule to run again;
- `report`: a failing run, with its places in the program; `rooms`: temporary folders;
- `options`, `command`: the command line.
"""
