"""Makes each system call of a script fail alone, or kills the program there, and compares what follows."""
