"""What stands between the program and its C library: a C file that answers some calls, and is told how by a file that both it and
a test have in memory."""

import contextlib
import mmap
import pathlib
import tempfile

from harness import environment, equal, need, ran

HERE = pathlib.Path(__file__).resolve().parent


def shared(path, length):
    """A new file of so many bytes, all 0, in memory."""
    path.write_bytes(bytes(length))
    with open(path, "r+b") as file:
        return mmap.mmap(file.fileno(), length)


@contextlib.contextmanager
def between(world, shim, variable, kind, *words):
    """The program once more, with these words and behind this C file, and what tells it: of this kind, made over the file that the
    variable names."""
    with between_each(world, [(shim, variable, kind)], *words) as (proxy, [teller]):
        yield proxy, teller


@contextlib.contextmanager
def between_each(world, shims, *words):
    """The same behind several C files, each with its variable and its kind."""
    need("cc")
    with tempfile.TemporaryDirectory() as folder:
        libraries = [f"{folder}/{shim}.so" for shim, _variable, _kind in shims]
        for library, (shim, _variable, _kind) in zip(libraries, shims):
            equal(ran(["cc", "-shared", "-fPIC", "-o", library, HERE / shim]).returncode, 0, "cc's status")
        files = {variable: str(pathlib.Path(folder, variable)) for _shim, variable, _kind in shims}
        tellers = [kind(pathlib.Path(files[variable])) for _shim, variable, kind in shims]
        with world.anew(*words, environment=environment(LD_PRELOAD=" ".join(libraries), **files)) as proxy:
            yield proxy, tellers
