"""Names that have the addresses which a test gives them, whatever the machine's own look-up says."""

from shims import between

class Names:
    """The names of a program."""

    def __init__(self, path):
        self._path, self._addresses = path, {}

    def give(self, name, *addresses):
        """From the next look-up on it has these, in this order."""
        self._addresses[name] = addresses
        self._path.write_text("".join(" ".join([name, *given]) + "\n" for name, given in self._addresses.items()))


SHIM = ("names.c", "NAMES_FILE", Names)


def named(world):
    """The program once more, and its names."""
    return between(world, *SHIM)
