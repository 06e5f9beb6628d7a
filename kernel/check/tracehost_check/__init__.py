"""Explains a log of libtracehost-log.so: which turns of the model give all its answers (`command.main`)."""
