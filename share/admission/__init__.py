"""Which messages count: one pure function of the set of entries that came, in whatever order they did. It keeps what it has judged, so
that a further entry costs little. It imports share.text and share.format."""
