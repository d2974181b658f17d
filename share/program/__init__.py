"""One process of the program, as a site: events go in, answers come out, and what a message changes in the text is asked for. Undo,
the text as it was and what differs between two texts are made of that alone. It imports share.text, share.format and
share.admission."""
