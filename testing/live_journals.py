"""Journals of live editing that are cut, changed, or of something else; saves; keys; and who holds which file."""

import hashlib
import os
import random
import subprocess
import time

from live_process import Home, Live, Wrong, city, scripts_in, ready, replayed, require, script, set_to, whole_lines

OBJECTS = {"b": {"type": "Building", "attributes": {"n": 0}}, "o": {"type": "LandUse"}}
IN_USE = "cityed: file in use\n"


def lived(program, folder):
    """A home behind a save, four more commits and a kill; and the objects at each version."""
    home = Home(folder, OBJECTS)
    live = ready(program, *home.words())
    models = {0: live.model()[0]}
    for number in range(1, 8):
        if number == 4:
            require(live.ask(hand="s", save=True).get("saved") == 3, "a save", live.told())
        if number == 6:
            live.ask(hand="t", begin="by hand")
            live.ask(hand="t", do={"read": "o"})
            require("refused" in live.ask(hand="t", do={"delete": "nothing"}), "no refusal")
            live.ask(hand="t", do=set_to("o", number))
            new = {"add": f"é\"{number}", "object": {"type": "Road", "attributes": {"t": "ä\n"}}}
            live.ask(hand="t", do=new)
            live.ask(hand="t", commit=True, key="kept")
        else:
            new = {"add": f"n{number}", "object": {"type": "LandUse"}}
            live.commit("h", f"s{number}", set_to("o", number), new, key=f"k{number}")
        objects, version = live.model()
        require(version == number, "version", number, version, live.told())
        models[number] = objects
    live.kill()
    return home, models


def starts_as(program, home, models, version, is_cut, *told):
    """A start finds this version, goes on, and then a start finds that one. `is_cut`: whether a cut is told."""
    live = ready(program, *home.words())
    require(live.first["version"] == version, *told, "version", live.first, "wanted", version, live.told())
    require(live.model() == (models[version], version), *told, "another model", live.model())
    require(("last line was cut" in live.told()) == is_cut, *told, "is a cut told", live.told())
    ended = live.commit("x", "on", set_to("b", -1))
    require(ended.get("version") == version + 1, *told, "it doesn't go on", ended, live.told())
    live.kill()
    live = ready(program, *home.words())
    right = live.first["version"] == version + 1 and live.told() == ""
    require(right, *told, "the start after", live.first, live.told())
    objects, _ = live.model()
    require(objects["b"]["attributes"]["n"] == -1, *told, "the commit after", objects)
    live.kill()


def refused(program, home, words, *told):
    """A start that is refused has touched no file but those of locks. Returns what it says."""
    state = home.state()
    live = Live(program, *words)
    if live.first is not None:
        live.kill()
        raise Wrong(*told, "starts", live.first, home.root)
    status, error = live.over(), live.told()
    require(status == 1 and error.startswith("cityed: "), *told, status, error)
    require(home.state() == state, *told, "a file was touched", {k: v[-200:] for k, v in home.state().items()})
    return error


def cuts(program, folder, given):
    """The journal is cut at each byte of its last two lines, with nothing or with other bytes behind."""
    first, models = lived(program, folder)
    text, choose, count = first.read("journal"), random.Random(given.seed), 0
    start = text.rindex(b"\n", 0, text.rindex(b"\n", 0, -1)) + 1
    for at in range(start, len(text) + 1, given.stride):
        for more in (b"", bytes(choose.choice(range(256)) for _ in range(40)).replace(b"\n", b"")):
            home = first.copy(folder)
            home.write("journal", text[:at] + more)
            kept = sum(b'"script":' in line for line in text[:at].split(b"\n")[:-1])
            is_cut = bool(more) or not text[:at].endswith(b"\n")
            starts_as(program, home, models, 3 + kept, is_cut, "cut", at, more)
            count += 1
    return f"{count} cuts"


def changes(program, folder, given):
    """A byte of the journal is changed: in the last line it is a cut; in other commits the journal is refused; in what
    stands before them it is refused, or the model is as it was."""
    first, models = lived(program, folder)
    text, choose = first.read("journal"), random.Random(given.seed)
    last, head = text.rindex(b"\n", 0, -1) + 1, text.rindex(b"\n", 0, text.index(b'"script"')) + 1
    counts = {"refused": 0, "dropped": 0, "as it was": 0}
    for at in range(0, len(text) - 1, given.stride):
        byte = bytes([choose.choice([text[at] ^ 1, text[at] ^ 32, 0, 34, choose.randrange(256)])])
        if byte == text[at : at + 1] or byte == b"\n":
            continue
        home = first.copy(folder)
        home.write("journal", text[:at] + byte + text[at + 1 :])
        told = ("changed", at, text[max(at - 10, 0) : at + 10], byte, home.root)
        if at >= last - 1:
            # (without the newline before it the last line has the last two commits)
            starts_as(program, home, models, 6 if at >= last else 5, True, *told)
            counts["dropped"] += 1
        elif at < head and (live := Live(program, *home.words())).first is not None:
            require(live.model()[0] == models[7], *told, "another model")
            live.kill()
            counts["as it was"] += 1
        else:
            if at < head:
                live.over()
            home.write("journal", text[:at] + byte + text[at + 1 :])
            refused(program, home, home.words(), *told)
            counts["refused"] += 1
    return ", ".join(f"{count} {name}" for name, count in counts.items())


def digests(text):
    """The sums that a model's text may have: of all, or without the last newline."""
    return [hashlib.sha256(it).hexdigest() for it in (text, text.rstrip(b"\n"))]


def others(program, folder, _given):
    """A journal of another model or of other numbers, or no journal, is refused; FILE may be another than MODEL."""
    home, models = lived(program, folder)
    other = home.copy(folder)
    other.write("city.json", city({**OBJECTS, "more": {"type": "Road"}}))
    error = refused(program, other, other.words(), "a journal of another model")
    based = whole_lines(other.read("journal"))[0]["base"]
    sums = [digests(other.read("city.json")), digests(home.read("city.json"))]
    require(based in sums[1], "the base of a journal isn't the sum of its model", based, sums)
    require(all(any(it in error for it in each) for each in sums), "both sums aren't told", error, sums)
    refused(program, home, ["--decimals", *home.words()], "a journal of other numbers")
    decimals = Home(folder, OBJECTS)
    live = ready(program, "--decimals", *decimals.words())
    live.commit("h", "s", set_to("o", 1))
    live.kill()
    refused(program, decimals, decimals.words(), "a journal of decimals")
    for text in (b"something else\n", b"{}\n", decimals.base, b"[]\n" * 3, b"\0" * 100 + b"\n"):
        strange = home.copy(folder)
        strange.write("journal", text)
        refused(program, strange, strange.words(), "no journal", text[:40])
    return f"9 journals refused, {elsewhere(program, folder, models)} starts with FILE elsewhere"


def elsewhere(program, folder, _models):
    """FILE isn't MODEL: a start takes FILE where the journal is based on it, else MODEL, and never changes MODEL."""
    count = 0
    for existing in (None, b"old", city({})):
        home = Home(folder, OBJECTS)
        target = home.path("saved.json")
        words = ["--output", target, "--journal", home.journal, home.file]
        if existing is not None:
            home.write("saved.json", existing)
        version = 0
        for turn in range(6):
            live = ready(program, *words)
            told = ("FILE elsewhere", existing, turn)
            require(live.first["version"] == version, *told, live.first, version, live.told())
            ended = live.commit("h", "s", {"add": f"n{turn}", "object": {"type": "LandUse"}})
            version += 1
            require(ended.get("version") == version, *told, ended)
            names = {*OBJECTS, *(f"n{number}" for number in range(version))}
            require(set(live.model()[0]) == names, *told, live.model())
            if turn % 3 == 1:
                require(live.ask(hand="s", save=True).get("saved") == version, "a save", live.told())
            if turn == 3:
                require(live.end()[0] == 0, "the end", live.told())
            else:
                live.kill()
            require(home.read("city.json") == home.base, *told, "MODEL was changed")
            count += 1
    return count


def saves(program, folder, _given):
    """What a save leaves: FILE whole, an archive of the journal for each, and a report of the same by the program."""
    home = Home(folder, OBJECTS)
    live, version, archives = ready(program, *home.words()), 0, []
    for turn in range(12):
        for _ in range(turn % 4):
            version += 1
            require(live.commit("h", "s", set_to("o", version)).get("version") == version, "a commit", live.told())
        require(live.ask(hand="s", save=True) == {"hand": "s", "saved": version}, "a save", turn, live.told())
        objects, _ = live.model()
        require(home.read("city.json") == city(objects), "FILE", turn, home.read("city.json"))
        if version:
            archives.append(f"journal.{version}")
        base = whole_lines(home.read("journal"))[0]
        require(base["version"] == version and base["base"] in digests(home.read("city.json")), "the new journal", base)
    left = [name for name in home.names() if name.startswith("journal.") and not name.endswith("lock")]
    require(set(archives) <= set(left), "archives", left, archives)
    for turn in range(120):
        require(live.ask(hand="s", save=True) == {"hand": "s", "saved": version}, "a save of what is saved", turn)
    require(live.ask(hand="s", bye=True).get("bye"), "bye")
    status, rest, error = live.end()
    require((status, rest, error) == (0, [], ""), "the end", status, rest, error)
    require(home.strays() == [], "left over", home.strays())
    for _ in range(2):  # a start and an end without a commit keep all archives
        live = ready(program, *home.words())
        require(live.first["version"] == version and live.end()[0] == 0, "a start without a commit", live.first)
    made = replayed(program, folder, home.base, scripts_in(home))
    require(len(scripts_in(home)) == version, "commits in the archives", len(scripts_in(home)), version)
    require(made == home.read("city.json"), "the archives' scripts", made)
    without = Live(program, home.file)
    answer = without.ask(hand="s", save=True)
    require(answer and "error" in answer, "a save without an --output", answer)
    require(without.end()[0] == 0 and home.read("city.json") == made, "without an --output")
    live, home = None, Home(folder, OBJECTS)
    live = ready(program, "--output", home.file, home.file)
    live.commit("h", "s", set_to("o", 5))
    require(home.read("city.json") == home.base, "saved too early")
    status, rest, error = live.end()
    require((status, rest, error) == (0, [], "") and b'"n":5' in home.read("city.json"), "the end saves", status, error)
    return f"{len(set(archives))} archives, {version} commits"


def keys(program, folder, _given):
    """A commit whose answer was lost is asked for again: it is made once, also behind a kill, a save and a start."""
    count = 0
    for turn, saved in ((0, False), (1, True), (2, False), (3, True)):
        home = Home(folder, OBJECTS)
        live = ready(program, *home.words())
        require(live.ask(hand="h", made="k").get("made", 0) is None, "made before")
        new = {"add": "n", "object": {"type": "Road"}}
        request = {"hand": "h", "key": "k", "script": script("s", set_to("o", 1), new)}
        if turn < 2:
            live.send(request)
            while live.read().get("ended") is None:
                pass
        else:
            for step in ({"begin": "s"}, {"do": set_to("o", 1)}, {"do": new}):
                live.ask(hand="h", **step)
            live.ask(hand="h", commit=True, key="k")
        for behind in ("at once", "from another hand", "behind a start", "behind another"):
            if saved and behind == "behind a start":
                require("saved" in live.ask(hand="s", save=True), "a save")
            if behind.startswith("behind"):
                live.kill()
                live = ready(program, *home.words())
            hand = "g" if behind == "from another hand" else "h"
            told = (behind, "saved" if saved else "not saved", "script" if turn < 2 else "commit", home.root)
            require(live.ask(hand=hand, made="k").get("made") == 1, *told, "made", live.ask(hand=hand, made="k"))
            require(live.ask(hand=hand, made="l").get("made", 0) is None, *told, "made l")
            answer = live.ask(**{**request, "hand": hand})
            ended = (answer or {}).get("ended", {})
            require(ended.get("outcome") == "committed" and ended.get("version") == 1, *told, "asked again", answer)
            require(live.model()[1] == 1, *told, "it was run again", live.model())
            count += 1
        require(live.commit("h", "t", set_to("o", 2), key="l").get("version") == 2, "another key")
        refusal = live.ask(hand="h", key="m", script=script("r", {"delete": "nothing"}))
        require(refusal["ended"]["outcome"] == "refused", refusal)
        require(live.ask(hand="h", made="m").get("made", 0) is None, "a refused script has made its key")
        require(live.commit("h", "t", set_to("o", 3), key="m").get("version") == 3, "a key of a refused script")
        live.kill()
    return f"{count + awaited_keys(program, folder)} asked again"


def awaited_keys(program, folder):
    """A script with a key waits: its hand is told that it is busy, or another hand asks with the same key."""
    for request in ({"commit": True}, {"begin": "t"}, {"key": "l", "script": script("l", set_to("b", 7))}, None):
        home = Home(folder, OBJECTS)
        live = ready(program, *home.words())
        live.ask(hand="old", begin="t")
        live.ask(hand="old", do=set_to("o", 1))
        keyed = {"key": "k", "script": script("k", set_to("o", 2))}
        live.send({"hand": "h", "id": 1, **keyed})
        require("waits" in live.read(), "a script that has to wait", live.told())
        if request is None:
            live.send({"hand": "g", "id": 2, **keyed})
        else:
            answer = live.ask(hand="h", id=2, **request)
            require(answer["error"]["fault"] in ("Busy", "AlreadyOpen"), "a hand that waits", answer)
        live.send({"hand": "old", "id": 3, "commit": True}, {"hand": "end", "id": 4, "look": "o"})
        for answer in iter(live.read, None):
            if answer["hand"] == "end":
                break
        told = ("while its script waits", request or "another hand asks with its key", home.root)
        made = live.ask(hand="x", made="k")
        require(made.get("made") == 2, *told, made)
        again = live.ask(hand="h", **keyed)
        require(again.get("ended", {}).get("version") == 2, *told, "asked again", again)
        require(live.model()[1] == 2, *told, "run twice", live.model())
        live.kill()
    return 4


def locks(program, folder, _given):
    """Two live programs on one FILE or one journal, and a batch run onto a live FILE, by any name: file in use."""
    home, count = Home(folder, OBJECTS), 0
    os.symlink("city.json", home.path("link"))
    os.symlink("journal", home.path("journal-link"))
    home.write("edits", b'[{"name":"s","commands":[{"set":"o","attributes":{"n":9}},"commit"]}]')
    live = ready(program, *home.words())
    live.commit("h", "s", set_to("o", 1))
    file, link, journal, linked = home.file, home.path("link"), home.journal, home.path("journal-link")
    other, new = home.path("other.json"), home.path("other-journal")
    home.write("other.json", home.base)
    lines = [["--output", file, file], ["--output", link, other], ["--output", file, "--journal", new, file]]
    lines += [["--journal", journal, file], ["--output", other, "--journal", journal, other]]
    lines += [["--journal", linked, file], ["--output", file, "--wait", "1", file]]
    for words in lines:
        names, start = home.names(), time.monotonic()
        error = refused(program, home, words, "in use", words)
        require(error in (IN_USE, IN_USE.replace(": ", ": journal: ", 1)), words, error)
        require(("--wait" in words) == (time.monotonic() - start >= 1), "waited", words, time.monotonic() - start)
        require(home.names() == names, words, "names", home.names(), names)
        count += 1
    for words in (["-o", file, file, home.path("edits")], ["-o", link, other, home.path("edits")]):
        ran = subprocess.run([program, *words], capture_output=True, stdin=subprocess.DEVNULL, timeout=60, check=False)
        require((ran.returncode, ran.stdout, ran.stderr.decode()) == (1, b"", IN_USE), words, ran)
        count += 1
    looks = ready(program, file)  # one that writes nothing holds nothing
    require(looks.end()[0] == 0, "one that only looks", looks.words)
    waits = subprocess.Popen(
        [program, "--live", "--output", file, "--wait", "30", file],
        stdin=subprocess.PIPE, stdout=subprocess.PIPE, stderr=subprocess.PIPE,
    )
    time.sleep(0.2)
    require(live.commit("h", "s", set_to("o", 2)).get("version") == 2, "goes on", live.told())
    require(live.end()[0] == 0, "the end")
    output, error = waits.communicate(b'{"hand":"h","look":"o"}\n', timeout=60)
    require(waits.returncode == 0 and b'"n":2' in output, "one that waits", waits.returncode, output, error)
    require([name for name in home.names() if "lock" in name] == [], "left over", home.names())
    return f"{count} refused, one waited"
