"""One module for each command of `regkit`."""
