"""What every floor may use: the limits, how a command ends, and the guard of the garbage collector."""
