"""Sessions of the model that are played on a kernel, and compared."""
