"""Editors and their clients of an engine: what an editor has of a note, the terminal, the page, and scripts. They speak to the engine by
its protocol alone. It imports share.engine and what is below."""
