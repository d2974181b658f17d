"""What a log carries, byte by byte: operations, chunks, entries, sealing, presence and links; and messages in a row; in
share.format.second the same of the second form of notes. Nothing here reads or writes a file. It imports share.text."""
