"""Reviews: what the margin of a note says, as one pure function of the insertions there that count, and what anchors hold. Nothing here
reads or writes a file. It imports share.text and share.format."""
