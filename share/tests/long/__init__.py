"""Random runs, storms, kills at random moments and figures of time: `bin/test --long` runs them, the gate doesn't."""
