"""A second model of the tracing machine, written only from docs/internals/MACHINE.md and docs/FORMAT.md.

It is plain Python over whole lists of rows, and shares no code with the proved program.  A user sees no rows of
others, so each user has a view of their own here, and a step takes one view to the next.
"""
