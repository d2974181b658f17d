"""The command share/tests/run: finding modules of tests, running each in a process of its own, and counting."""
