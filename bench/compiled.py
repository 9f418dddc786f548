"""Compiles a C source of this folder with the machine's compiler, for the scripts beside it."""
import os
import subprocess
import sys

HERE = os.path.dirname(os.path.abspath(__file__))


def compiled(folder, source, *options):
    """The path of the source's program or library, which is made in the folder given."""
    path = os.path.join(folder, os.path.splitext(source)[0])
    for compiler in (os.environ.get("CC"), "cc", "gcc", "clang"):
        words = [compiler, "-O2", *options, "-o", path, os.path.join(HERE, source)]
        try:
            if compiler and subprocess.run(words).returncode == 0:
                return path
        except FileNotFoundError:
            pass
    sys.exit("no C compiler was found: install one, or name it in CC")
