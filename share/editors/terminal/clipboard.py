"""The words that are kept to be put elsewhere."""
from share.editors.terminal.keys import Pasted


class Clipboard:
    """What was cut or copied last, or written in vain."""

    def __init__(self) -> None:
        self.text = ""

    def pasted(self) -> Pasted:
        """The same, as if it came from elsewhere."""
        return Pasted(self.text)
