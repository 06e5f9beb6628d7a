// gdbsupport/config.h has all.
