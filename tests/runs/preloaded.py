"""Small libraries that are loaded before libc: each is a C file in this folder."""
import functools
import os
import pathlib
import subprocess
import tempfile


@functools.lru_cache(maxsize=None)
def library(name):
    """Builds the library with this name. Its folder is removed when this process ends."""
    folder = tempfile.TemporaryDirectory(prefix=f"{name}-")
    made = f"{folder.name}/lib{name}.so"
    source = pathlib.Path(__file__).resolve().parent / f"{name}.c"
    subprocess.run(["cc", "-O2", "-shared", "-fPIC", "-o", made, source, "-ldl"], check=True)
    return folder, made


def environment(name, **more):
    """Returns the environment of a program for which the library is loaded, with these variables added."""
    _, made = library(name)
    return {**os.environ, "LD_PRELOAD": made, **more}
