"""Who may: a file with a name, a right and the hash of a token in each line."""
import hashlib
import hmac
import logging
import os
import re
import secrets
from pathlib import Path

log = logging.getLogger("gateway")
RIGHTS = ("edit", "watch")
NAME = re.compile(r"[\w.-]{1,40}")
HEAD = "# NAME edit|watch SHA-256-OF-TOKEN\n"


def digest(token):
    """The hash of a token, as the file has it."""
    return hashlib.sha256(token.encode("utf-8", "replace")).hexdigest()


class Rights:
    """Names and rights by tokens. The file is read again where it has changed."""

    def __init__(self, path):
        self.path, self.seen, self.people = path, None, {}

    @staticmethod
    def of_one(name, token):
        """One who may edit, without a file."""
        rights = Rights(None)
        rights.people = {digest(token): (name, "edit")}
        return rights

    def who(self, token):
        """Name and right of a token, or None. All hashes are compared, each in constant time."""
        self.look_again()
        wanted, found = digest(token), None
        for known, person in self.people.items():
            if hmac.compare_digest(known, wanted):
                found = person
        return found

    def look_again(self):
        if self.path is None:
            return
        try:
            stat = os.stat(self.path)
            if self.seen != (stat.st_mtime_ns, stat.st_size, stat.st_ino):
                self.seen, self.people = (stat.st_mtime_ns, stat.st_size, stat.st_ino), read_people(self.path)
        except OSError as error:
            log.error("%s can't be read, so nobody may: %s", self.path, error.strerror)
            self.seen, self.people = None, {}


def read_people(path):
    """Names and rights by hash; a line that isn't understood is told and left out."""
    if os.stat(path).st_mode & 0o077:
        log.warning("%s can be read by others", path)
    people = {}
    for n, line in enumerate(Path(path).read_text(encoding="utf-8").splitlines(), 1):
        words = line.partition("#")[0].split()
        if not words:
            continue
        if (len(words) != 3 or words[1] not in RIGHTS or not NAME.fullmatch(words[0])
                or not re.fullmatch("[0-9a-f]{64}", words[2])):
            log.error("%s: line %d isn't NAME edit|watch SHA-256-OF-TOKEN", path, n)
            continue
        people[words[2]] = words[0], words[1]
    return people


def add_person(path, name, right):
    """Gives a name a new token in place of its old ones, and returns the token, which is in no file."""
    if not NAME.fullmatch(name) or right not in RIGHTS:
        raise ValueError("a name has 1 to 40 letters, digits, _ . or -, and a right is edit or watch")
    token = secrets.token_urlsafe(24)
    old = Path(path).read_text(encoding="utf-8").splitlines(True) if os.path.exists(path) else [HEAD]
    kept = [line for line in old if line.partition("#")[0].split()[:1] != [name]]
    new = "%s.new" % path
    with open(os.open(new, os.O_WRONLY | os.O_CREAT | os.O_TRUNC, 0o600), "w", encoding="utf-8") as file:
        file.write("".join(kept) + "%s %s %s\n" % (name, right, digest(token)))
        file.flush()
        os.fsync(file.fileno())
    os.replace(new, path)
    return token
