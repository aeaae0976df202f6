"""Runs a program in which chosen calls for memory, threads, reading or writing are refused."""

import os
import subprocess

HERE = os.path.dirname(os.path.abspath(__file__))


class Refused:
    """A built program that is run with refusals, which refuse.c makes."""

    def __init__(self, path, folder):
        self.path, self.library = os.path.abspath(path), os.path.join(folder, "refuse.so")
        source = os.path.join(HERE, "refuse.c")
        subprocess.run(["cc", "-O1", "-shared", "-fPIC", "-o", self.library, source, "-ldl"], check=True)

    def answer(self, arguments, text, **refusals):
        """Returns whether a call was refused, status, output and error text."""
        told, tells = os.pipe()
        # A viewer that finds no memory looks on, and is refused again: what the pipe can't take needn't be told.
        os.set_blocking(tells, False)
        variables = {**os.environ, "LD_PRELOAD": self.library, "REFUSED_FD": str(tells), **refusals}
        ran = subprocess.run(
            [self.path, *arguments], input=text, capture_output=True, env=variables, pass_fds=[tells], timeout=60
        )
        os.close(tells)
        with os.fdopen(told, "rb") as file:
            refused = file.read() != b""
        return refused, ran.returncode, ran.stdout, ran.stderr
