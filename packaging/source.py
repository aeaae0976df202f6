"""What the repository and a built program say of themselves."""

import os
import re
import subprocess
import time
from pathlib import Path

ROOT = Path(__file__).resolve().parent.parent
DESCRIPTION = ROOT / "crates/city_options/src"
HELP = ROOT / "testing/help.txt"
SECONDS = 30


class Stop(Exception):
    """Why nothing is made."""


def version():
    """The version of the sources."""
    texts = [it.read_text(encoding="utf-8") for it in sorted(DESCRIPTION.glob("*.rt"))]
    found = re.search(r'(?:\.version\(|const VERSION: &str = )"([^"]+)"', "\n".join(texts))
    if not found:
        raise Stop(f"{DESCRIPTION.relative_to(ROOT)} says no version")
    return found[1]


def said(program, *words):
    """What a program prints where it is called with these words."""
    try:
        ran = subprocess.run([program, *words], stdin=subprocess.DEVNULL, capture_output=True, timeout=SECONDS)
    except (OSError, subprocess.TimeoutExpired) as why:
        raise Stop(f"{program} doesn't run: {why}") from why
    if ran.returncode or ran.stderr:
        raise Stop(f"{program} {' '.join(words)} ended with status {ran.returncode}")
    return ran.stdout.decode()


def made_at():
    """The time of what is made, in seconds: SOURCE_DATE_EPOCH, or that of the last commit, or now."""
    given = os.environ.get("SOURCE_DATE_EPOCH")
    if given:
        return int(given)
    words = ["git", "-C", str(ROOT), "log", "-1", "--format=%ct"]
    try:
        ran = subprocess.run(words, stdin=subprocess.DEVNULL, capture_output=True, timeout=SECONDS)
    except OSError:
        return int(time.time())
    return int(ran.stdout) if ran.returncode == 0 and ran.stdout.strip() else int(time.time())


def day_of(seconds):
    """The day of a time, in UTC."""
    return time.strftime("%Y-%m-%d", time.gmtime(seconds))
