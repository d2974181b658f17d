"""A note in a browser: a page with CodeMirror, and the bridge between it and the note's engine."""
