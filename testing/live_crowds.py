"""Live runs under very many hands, and such whose answers nobody reads."""

import json
import os
import subprocess
import threading
import time

from live_process import SECONDS, Home, city, line_of, ready, require, script, set_to

MOST_HANDS = 4_096
MOST_GROWTH = 64  # MiB of memory that answers which nobody reads may take
STILL = 1.5  # who takes no byte for so many seconds is blocked
OBJECTS = {"a": {"type": "Road"}, "b": {"type": "Road"}}


def crowd(program, folder, _given):
    """As many hands as there may be and one more; some say bye, and others take their places."""
    home = Home(folder, OBJECTS)
    live = ready(program, *home.words())
    hands = [f"h{number}" for number in range(MOST_HANDS)]

    def asked(requests):
        feeder = live.pour(*requests)
        answers = [live.last() for _ in requests]
        feeder.join()
        require(None not in answers, "ended", live.told())
        return answers

    began = asked([{"hand": hand, "id": 1, "begin": "t"} for hand in hands])
    require(all("began" in it for it in began), "a hand that may begin", began[-1])
    for request in ({"begin": "t"}, {"watch": True}, {"script": script("s", {"read": "a"})}):
        for hand in ("more", "much more"):
            answer = live.ask(hand=hand, **request)
            require(answer["error"]["fault"] == "TooManyHands", "one hand more", request, answer)
    read = asked([{"hand": hand, "id": 2, "do": {"read": "a"}} for hand in hands])
    require(all("reply" in it for it in read), "reads of one object", read[-1])
    for hand in hands[::64]:
        live.send({"hand": hand, "id": 3, "bye": True})
        ended, bye = live.last(), live.last()
        require(ended["ended"]["outcome"] == "aborted" and bye["bye"], "a bye", ended, bye)
        require("began" in live.ask(hand=f"{hand} again", begin="t"), "a hand in the place of another")
        require(live.ask(hand="more", begin="t")["error"]["fault"] == "TooManyHands", "one hand more")
    left = [hand for number, hand in enumerate(hands) if number % 64]
    ends = asked([{"hand": hand, "id": 4, "commit": True} for hand in left])
    require(all(it["ended"]["outcome"] == "committed" for it in ends), "a commit of a read", ends[-1])
    status, _, error = live.end()
    require(status == 0, "status", status, error)
    return f"{MOST_HANDS} hands, {len(hands[::64])} byes, {byes(program, folder)} byes of hands that wait"


def byes(program, folder):
    """Thousands of scripts wait for one lock; every other hand says bye, and the others go on when the lock is free."""
    home, count = Home(folder, OBJECTS), 2_000
    live = ready(program, *home.words())
    live.ask(hand="first", begin="t")
    live.ask(hand="first", do=set_to("a", -1))
    live.pour(*({"hand": f"h{n}", "id": n, "script": script("s", set_to("a", n))} for n in range(count)))
    waits = [live.read() for _ in range(count)]
    require(all(it and "waits" in it for it in waits), "a wait", waits[-1], live.told())
    live.pour(*({"hand": f"h{n}", "id": "bye", "bye": True} for n in range(0, count, 2)))
    for number in range(0, count, 2):
        cancelled, ended, bye = live.read(), live.read(), live.read()
        told = (number, cancelled, ended, bye)
        require(cancelled.get("cancelled") and cancelled["id"] == number and bye.get("bye"), "a bye", *told)
        require(ended["ended"]["outcome"] == "aborted" and ended["id"] == "bye", "a bye", *told)
    live.send({"hand": "first", "id": 0, "commit": True})
    ends = [live.last() for _ in range(count // 2 + 1)]
    versions = sorted(it["ended"]["version"] for it in ends if it and "ended" in it)
    require(versions == list(range(1, count // 2 + 2)), "who waited", ends[-1], versions[-3:])
    objects, version = live.model()
    require(version == count // 2 + 1 and objects["a"]["attributes"]["n"] % 2 == 1, "the model", objects, version)
    status, rest, error = live.end()
    require((status, rest) == (0, []), "status", status, rest, error)
    return count // 2


def filled(live, line, most):
    """Sends this line again and again until nobody takes a byte of it for a while. Returns how many were taken whole.

    The rest of the last one is sent later, by `rest`."""
    pipe, sent, moved = live.process.stdin.fileno(), 0, time.monotonic()
    os.set_blocking(pipe, False)
    block = line * max(1, 16_384 // len(line))
    while time.monotonic() - moved < STILL and sent < most * len(line):
        try:
            sent += os.write(pipe, block[sent % len(line) :])
            moved = time.monotonic()
        except BlockingIOError:
            time.sleep(0.01)
    os.set_blocking(pipe, True)
    return sent


def never_reads(program, folder, _given):
    """Nobody reads the answers: the program stops to take requests, keeps little, and goes on where they are read."""
    home, told = Home(folder, {f"o{n:05}": {"type": "Road", "attributes": {"t": "x" * 400}} for n in range(2_000)}), []
    ids = [f"o{n:05}" for n in range(2_000)]
    kinds = {
        "sets": ({"hand": "h", "script": script("s", set_to("o00000", 1))}, 0),
        "models": ({"hand": "h", "model": True}, 0),
        "looks": ({"hand": "h", "look": ids}, 0),
        "ids": ({"hand": "h", "ids": True}, 0),
        "changes": ({"hand": "h", "script": script("s", set_to("o00000", 1))}, 1_000),
        "garbage": (b"[\n", 0),
    }
    for kind, (request, watchers) in kinds.items():
        line = line_of(request)
        live = ready(program, "--journal", home.path(f"{kind}-journal"), home.file)
        live.pour(*({"hand": f"w{n}", "watch": True} for n in range(watchers)))
        for _ in range(watchers):
            live.read()
        live.model()
        before = live.memory("VmHWM")
        sent = filled(live, line, 4_000_000)
        most = live.memory("VmHWM")
        require(most - before <= MOST_GROWTH, kind, f"{most - before:.0f} MiB more for {sent} bytes")
        require(live.process.poll() is None, kind, "ended")
        rest = (-sent) % len(line)
        wanted = (sent + rest) // len(line)
        feeder = live.pour(line[len(line) - rest :] + line_of({"hand": "end", "look": "no"}))
        count = 0
        for text in live.process.stdout:
            if text.startswith(b'{"hand":"end"'):
                break
            count += b'"changed"' not in text[:40]
        feeder.join()
        require(count == wanted, kind, f"{count} answers to {wanted} requests", live.told())
        status, _, error = live.end()
        require(status == 0, kind, status, error)
        told.append(f"{kind} after {sent / 1e6:.1f} MB, {most - before:.0f} MiB more")
    return "blocks: " + "; ".join(told) + f"; {breaks(program, folder)}"


def breaks(program, folder):
    """Standard output breaks: what is committed is saved, and the status is 1."""
    home = Home(folder, OBJECTS)
    process = subprocess.Popen(
        [program, "--live", *home.words()], stdin=subprocess.PIPE, stdout=subprocess.PIPE, stderr=subprocess.PIPE
    )
    timer = threading.Timer(SECONDS, process.kill)
    timer.start()
    process.stdout.readline()
    process.stdin.write(line_of({"hand": "h", "script": script("s", set_to("a", 1))}))
    process.stdin.flush()
    process.stdout.readline()
    process.stdout.close()
    try:
        process.stdin.write(line_of({"hand": "h", "script": script("s", set_to("b", 2))}))
        process.stdin.close()
    except BrokenPipeError:
        pass
    error = process.stderr.read()
    status = process.wait()
    timer.cancel()
    require(status == 1 and error.startswith(b"cityed: "), "standard output breaks", status, error)
    saved = json.loads(home.read("city.json"))["CityObjects"]
    require(saved["a"] == {"type": "Road", "attributes": {"n": 1}}, "a told commit isn't saved", saved)
    require(home.read("city.json") == city(saved), "FILE", home.read("city.json"))
    live = ready(program, *home.words())
    require(live.model()[0] == saved, "the next start", live.model(), saved)
    live.kill()
    return "broken output saves"
