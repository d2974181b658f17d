"""What a person has of notes on the disk: the note's file, packed files, nicknames, notes by their names, and reading without
changing anything. Whatever is written is written so that a full disk, or an end at any moment, leaves the old as it was. It imports
the folders named above it in share/."""
