"""How the time of a live run grows with its lines, and how long a start takes behind many commits."""

import os
import subprocess
import threading
import time

from live_process import SECONDS, Home, Wrong, line_of, ready, require, script, set_to

MOST_GROWTH = 4.5  # for four times the lines, so many times the processor time at most
LEAST_SECONDS = 0.03  # less than that the clock can't tell
MOST_REPLAY = 4  # seconds
TRIES = 3
NAMES = [f"o{number:04}" for number in range(500)]
OBJECTS = {name: {"type": "LandUse", "attributes": {"n": 0, "t": "x" * 200}} for name in NAMES}


def sets(count):
    for n in range(count):
        yield {"hand": f"h{n % 8}", "id": n, "script": script(f"s{n}", set_to(NAMES[n % 500], n))}


def keyed(count):
    for n, request in enumerate(sets(count)):
        yield {**request, "key": f"k{n}"}


def transactions(count):
    for n in range(count // 4):
        hand = f"h{n % 8}"
        yield {"hand": hand, "begin": f"t{n}"}
        yield {"hand": hand, "do": set_to(NAMES[n % 500], n)}
        yield {"hand": hand, "do": {"read": NAMES[n * 7 % 500]}}
        yield {"hand": hand, "commit": True}


def new_objects(count):
    for n in range(count):
        yield {"hand": "h", "script": script("s", {"add": f"new-{n}", "object": {"type": "Road"}})}


def one_transaction(count):
    """Transactions of a thousand commands."""
    for start in range(0, count, 1000):
        yield {"hand": "h", "begin": "t"}
        for n in range(1000):
            yield {"hand": "h", "do": set_to(NAMES[n % 500], start + n)}
        yield {"hand": "h", "commit": True}


def watched(count):
    for n in range(20):
        yield {"hand": f"w{n}", "watch": True}
    yield from sets(count // 4)


def looks(count):
    for n in range(count):
        yield {"hand": "h", "look": NAMES[n * 7 % 500]}


def hands(count):
    for n in range(count):
        yield {"hand": f"hand-{n}", "script": script("s", {"read": NAMES[0]})}


def garbage(count):
    for n in range(count):
        yield b"no JSON\n" if n % 2 else {"hand": "h", "do": {"read": "a"}}


KINDS = [(sets, 15_000), (keyed, 15_000), (transactions, 20_000), (new_objects, 10_000), (one_transaction, 15_000)]
KINDS += [(watched, 6_000), (looks, 20_000), (hands, 10_000), (garbage, 20_000)]


def seconds_of(program, folder, lines):
    """Processor time that a live run with a journal takes for these lines, once it is ready."""
    home = Home(folder, OBJECTS)
    live = ready(program, "--journal", home.journal, home.file)
    before, text = live.seconds(), b"".join(map(line_of, lines))
    feeder = threading.Thread(target=lambda: live.send_bytes(text + line_of({"hand": "end", "look": "no"})))
    feeder.start()
    for line in live.process.stdout:
        if line.startswith(b'{"hand":"end"'):
            break
    feeder.join()
    took = live.seconds() - before
    status, _, error = live.end()
    require(status == 0, "status", status, error)
    return took


def growth(program, folder, _given):
    """Four times the lines take at most 4.5 times the processor time."""
    told = []
    for kind, count in KINDS:
        times = []
        for _ in range(TRIES):
            few, many = (seconds_of(program, folder, kind(size)) for size in (count, 4 * count))
            times.append(many / max(few, LEAST_SECONDS))
            if min(times) <= MOST_GROWTH:
                break
        told.append(f"{kind.__name__} {min(times):.1f}")
        require(min(times) <= MOST_GROWTH, f"{kind.__name__}: four times the lines take {min(times):.1f} times as long")
    return "times the processor time for four times the lines: " + ", ".join(told)


def replay(program, folder, given):
    """A start behind 100,000 commits of a journal."""
    home = Home(folder, OBJECTS)
    count = 100_000
    text = b"".join(map(line_of, sets(count)))
    start = time.monotonic()
    ran = subprocess.run(
        [program, "--live", "--journal", home.journal, home.file],
        input=text, stdout=subprocess.DEVNULL, stderr=subprocess.PIPE, timeout=SECONDS, check=False,
    )
    made = time.monotonic() - start
    require(ran.returncode == 0, "status", ran.returncode, ran.stderr)
    times = []
    for _ in range(TRIES):
        start = time.monotonic()
        live = ready(program, "--journal", home.journal, home.file)
        times.append(time.monotonic() - start)
        require(live.first["version"] == count, "version", live.first)
        last, processor = live.ask(hand="h", look=NAMES[(count - 1) % 500]), live.seconds()
        require(last["look"]["object"]["attributes"]["n"] == count - 1, "the last commit", last)
        live.kill()
        if min(times) <= MOST_REPLAY:
            break
    how = f"{processor:.1f} s of processor, load {os.getloadavg()[0]:.1f}"
    told = f"{count} commits made in {made:.1f} s, replayed in {min(times):.1f} s ({how})"
    if min(times) > MOST_REPLAY and processor > MOST_REPLAY:
        raise Wrong(told)
    return told
