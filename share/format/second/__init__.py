"""The second form of notes as docs/NOTES.md has it, byte by byte: keys, signatures, records, claims, links. A record is what the page
calls an entry. Nothing here reads or writes a file, or knows a clock."""
