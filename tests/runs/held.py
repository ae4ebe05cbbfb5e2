"""How much of the heap a program holds, counted by a small library (held.c) that is loaded before libc."""
import tempfile

from preloaded import environment


class Held:
    """The environment (`env`) of a program, which then reports how many bytes it holds."""

    def __init__(self):
        self.file = tempfile.NamedTemporaryFile(prefix="held-")
        self.file.write(bytes(8))
        self.file.flush()
        self.env = environment("held", HELD_IN=self.file.name)

    def now(self):
        """Returns how many bytes of the heap the program holds now."""
        with open(self.file.name, "rb") as file:
            return int.from_bytes(file.read(8), "little", signed=True)
