"""Reads and writes packed histories and chunks apart from the program, by docs/FORMATS.md alone."""
