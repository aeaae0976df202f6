"""Shells at a terminal, asked what they make of a line when a key is struck."""

import fcntl
import os
import pty
import re
import select
import shlex
import shutil
import signal
import struct
import subprocess
import termios
import time

SECONDS = 20
PROMPT = "@@"
COLOUR = r"\x1b\[[\d;]*[A-Za-z]"  # and other requests to a terminal
WIDE = struct.pack("HHHH", 50, 4000, 0, 0)  # no line is broken


class NoAnswer(Exception):
    """A shell didn't answer in time."""


class Terminal:
    """A program at a terminal of its own."""

    def __init__(self, words, folder, env):
        self.child, self.end = pty.fork()
        if self.child == 0:
            os.chdir(folder)
            os.execvpe(words[0], words, env)
        fcntl.ioctl(self.end, termios.TIOCSWINSZ, WIDE)

    def type(self, text):
        os.write(self.end, text.encode())

    def until(self, pattern):
        """What is printed until a pattern is found."""
        text, last = "", time.monotonic() + SECONDS
        while True:
            found = re.search(pattern, re.sub(COLOUR, "", text), re.S)
            if found:
                return found
            ready, _, _ = select.select([self.end], [], [], max(0, last - time.monotonic()))
            if not ready:
                raise NoAnswer(f"no {pattern} in {text[-2000:]!r}")
            text += os.read(self.end, 65536).decode(errors="replace")

    def close(self):
        os.kill(self.child, signal.SIGKILL)
        os.waitpid(self.child, 0)
        os.close(self.end)


def environment(home):
    kept = {it: os.environ[it] for it in ("PATH", "LANG", "LC_ALL") if it in os.environ}
    return {**kept, "HOME": str(home), "TERM": "xterm", "INPUTRC": "/dev/null", "HISTFILE": "/dev/null"}


def divided(line):
    """The words behind a line's first: those before the one where the line ends, and that one if it is begun."""
    words = shlex.split(line)[1:]
    return (words, []) if line.endswith(" ") else (words[:-1], words[-1:])


class Lines:
    """A shell with line editing. Its line is completed, and then printed word by word."""

    begin, print, one, all = (), "printf '{%s}' ", "\t", "\t"

    def __init__(self, places, folder, home):
        words, lines = self.start(places)
        self.terminal = Terminal(words, folder, environment(home))
        self.terminal.type("".join(f"{it}\n" for it in [*lines, f"PS1='{PROMPT[:1]}''{PROMPT[1:]}'"]))
        self.terminal.until(PROMPT)

    def ask(self, line, key):
        """The words of a line, once a key was struck at its end."""
        self.terminal.type(line + key)
        time.sleep(0.3)
        self.terminal.type(f"\x01{self.print}\n")
        printed = self.terminal.until(rf"\{{{line.split()[0]}\}}((?:\{{[^{{}}]*\}})*){PROMPT}")
        return re.findall(r"\{([^{}]*)\}", printed[1])

    def completed(self, line):
        """The words behind the first, completed by one key."""
        return self.ask(line, self.one)

    def offered(self, line):
        """All words that are offered for the last one of a line."""
        before, last = divided(line)
        offered = self.ask(line, self.all)[len(before) :]
        return [] if offered == last else [it.rstrip("=") for it in offered]

    def close(self):
        self.terminal.close()


class Bash(Lines):
    name, all = "bash", "\x1b*"

    @staticmethod
    def start(places):
        lines = ["bind 'set enable-bracketed-paste off'", f"source '{places['bash']}'"]
        return ["bash", "--noprofile", "--norc", "-i"], lines


class Zsh(Lines):
    name, all = "zsh", "\x18a"

    @staticmethod
    def start(places):
        lines = [
            "unset zle_bracketed_paste; bindkey -e; setopt no_prompt_cr no_prompt_sp no_auto_remove_slash",
            f"fpath=('{places['zsh']}' $fpath); autoload -Uz compinit; compinit -u -D",
            "zle -C every complete-word _generic; bindkey '^Xa' every",
            "zstyle ':completion:every::::' completer _all_matches _complete",
            "zstyle ':completion:every:*' insert true",
        ]
        return ["zsh", "-f", "-i"], lines


class Fish:
    """Fish tells its completions to a script."""

    name = "fish"

    def __init__(self, places, folder, home):
        self.places, self.folder, self.home = places, folder, home

    def offered(self, line):
        words = ["fish", "--no-config", "-c", "source $argv[1]; complete -C $argv[2]", str(self.places["fish"]), line]
        given = {"cwd": self.folder, "env": environment(self.home), "stdin": subprocess.DEVNULL, "timeout": SECONDS}
        ran = subprocess.run(words, capture_output=True, text=True, **given)
        if ran.stderr:
            raise NoAnswer(f"fish says: {ran.stderr[:2000]}")
        return [it.split("\t")[0] for it in ran.stdout.splitlines()]

    def completed(self, line):
        """The words behind the first, if one completion is offered for the last."""
        (before, last), offered = divided(line), self.offered(line)
        return [*before, *(offered if len(offered) == 1 else last)]

    def close(self):
        pass


def shells():
    """Each shell that is installed, and the names of those that aren't."""
    all = [Bash, Zsh, Fish]
    return [it for it in all if shutil.which(it.name)], [it.name for it in all if not shutil.which(it.name)]
