"""A relay: keeps the entries of many people's notes, which it can't read, and passes presence on. docs/RELAY.md has what it speaks."""
