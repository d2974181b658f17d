"""A note that is open. `session` is where its users begin: the editor's thread has the note's file, what counts of it, the numbers under
which its person types, and the replica that is shown; it makes edits, rebases those that stopped counting, and hides copies. `replicator`
has the threads that give a log what it lacks and fetch what it has, of which `carried` alone keeps account. It imports what is below: text,
format, admission, log, program and store."""
