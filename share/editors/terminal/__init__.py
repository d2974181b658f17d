"""The terminal editor: a screen of curses over a note at an engine. Keys come in, rows go out, and nothing that the note does holds up a
key. It imports share.editors and what is below."""
