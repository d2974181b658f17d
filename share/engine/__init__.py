"""A note that is open for editors: it transforms the edits of each over those of the others, shows who is on, and speaks the
protocol of docs/ENGINE.md over a socket. It never waits for an editor. It imports what is below, share.sync among it."""
