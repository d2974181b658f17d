"""Lets several people edit one note: drives the program by scripts of events, over a log that they share.

Its folders, each of which imports only those before it: text, format, admission, review, log, relay, program, store, proved, sync,
engine, editors, cli."""
