"""The command bin/test: Debian packages, the steps of the two sets of tests, running and counting steps, and the costs of proofs."""
