"""The command bin/note: its words, the verbs for scripts, installing. It has no rule of its own about notes. It imports all of
share/."""
