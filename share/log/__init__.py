"""Logs, which carry entries between people's disks: a file of SQLite, or a stream of a Redis server. They open nothing of what they
carry, and trust nothing that they are answered. It imports share.text and share.format."""
