"""A text as values: changes, units, looks, the names of characters, and words for what goes wrong. All is pure: no file,
process, clock or chance. It imports nothing else of share/."""
