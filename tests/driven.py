#!/usr/bin/env python3
"""Runs the console on what is too long or too odd for its committed session, and holds it to tests/console.py.

  tests/driven.py [LINES]        LINES of a random session, 20,000 if not given
  tests/driven.py --save DIR     writes each input and its expected answers to DIR instead

The console is run by ./ostalenc, which proves and builds it where it has changed.
"""

import pathlib
import random
import subprocess
import sys
import time

import console
import model
import usage
from handmade import some_ddc
from model import NORMAL, TEST
from sessions import writers
from sessions_ddc import ddc_at_length
from sessions_lines import wrong_words
from sessions_totals import to_the_bound
from talk import PAIR, Sessions, sound

ROOT = pathlib.Path(__file__).resolve().parent.parent
CONSOLE = [str(ROOT / "ostalenc"), "console"]


def long_session():
    """Trap 2 at length: 300 lesson keyings pass 8 bits, and the live order stands."""
    s = Sessions()
    s.session("300 lesson keyings")
    s.open("1267")
    s.packet(2, ptt=NORMAL)
    for _ in range(300):
        s.packet(7, ptt=TEST)
        s.packet(7)
    s.packet(1, ptt=NORMAL)
    s.packet(6, ptt=NORMAL)
    s.all_told("1267", ptt=NORMAL, id=2)
    s.air("2", NORMAL)
    s.packet(2)
    s.told(2, ptt=NORMAL, id=1)
    s.air("1", NORMAL)
    return "".join(line + "\n" for line in s.lines).encode()


def at_length():
    """Every wrong word, every write, and type 4 items."""
    s = Sessions()
    wrong_words(s)
    writers(s)
    ddc_at_length(s)
    return "".join(line + "\n" for line in s.lines).encode("latin-1")


def totals_to_the_bound():
    s = Sessions()
    to_the_bound(s)
    return "".join(line + "\n" for line in s.lines).encode()


def every_room():
    """Eight seats are due, and their reports take 208 bytes; the number of a report behind the tick tells whether they were written."""
    opened = [PAIR, "received 1 -850", *(f"open {seat} txrx 20 50 {seat} 0" for seat in range(1, 9))]
    lines = [line for room in range(514) for line in (*opened, f"tick 20 0 {room}", "report 1 0 - 24")]
    return "".join(line + "\n" for line in lines).encode()


def edges():
    line = b"tick 0 0 208"
    yield "empty input", b""
    yield "newlines alone", b"\n\n\r\n\n"
    yield "no last newline", b"close 1\nclose 9"
    yield "no last newline behind a comment", b"close 9\n# close 9"
    for length in (2047, 2048, 2049, 4096, 4097, 100_000):
        yield f"a line of {length} bytes", line.ljust(length) + b"\n" + line + b"\n"
        yield f"a line of {length} bytes with no end", line + b"\n" + line.ljust(length)
        yield f"a comment of {length} bytes", b"#".ljust(length, b"x") + b"\n" + line
        yield f"{length} NUL bytes", bytes(length) + b"\n" + line
    yield "every byte as a line", b"".join(bytes([b]) + b"\n" for b in range(256))
    yield "every byte inside a word", b"".join(b"close 9" + bytes([b]) + b"9\n" for b in range(256))
    yield "a long session", long_session()
    yield "words at length", at_length()
    yield "a tick with every room", every_room()
    yield "totals up to their bound", totals_to_the_bound()
    yield "air behind each line", b"".join(line + b"\nair\n" for line in random_session(5_000, 3).splitlines())
    yield "every level of 16 bits", b"".join(b"quality %d\n" % level for level in range(-32768, 32768))


# ---- a random session

def pick(r, *choices):
    return r.choice(choices)


def some_number(r, top):
    return r.choice([0, 1, 2, top - 1, top, top + 1, r.randrange(top + 1)])


class Random:
    """Lines of which a third are accepted, so that seats are opened, keyed, muted, silent, closed; the others are refused or wrong."""

    def __init__(self, seed):
        self.r = random.Random(seed)
        self.next = [0] * 10
        self.ext = 0x0167

    def seat(self):
        return self.r.choice([1, 2, 3, 4, 5, 6, 7, 8] * 4 + [0, 9, 255, 256])

    def audio(self):
        return console.hexed(sound(self.r.randrange(8), self.r.choice([0, 0, 0, 80, 160, 240, 1, 241])))

    def setup(self):
        r = self.r
        self.ext = r.choice([0x0167, 0x0167, 0, 0xFFFF])
        seats = "".join(str(n) for n in range(1, 9) if r.random() < 0.3) or "-"
        return f"setup {seats} {self.ext:04x} {pick(r, 'single', 'pair', 'pair', 'shared', 'shared')} {pick(r, 'lockout', 'summation')} {pick(r, 'interruption', 'summation')}"

    def open(self):
        r = self.r
        call = r.choice(["txrx"] * 5 + ["idle", "rxonly", "coupling", "none"])
        return f"open {self.seat()} {call} {r.choice([20, 100, 200, 200, 1000, 1000, 1000, 19])} {r.choice([2, 10, 50, 50, 50, 50, 50, 51])} {r.randrange(2**32)} {some_number(r, 65535)}"

    def packet(self):
        r, seat = self.r, self.seat()
        place = min(seat, 9)
        self.next[place] = (self.next[place] + r.choice([1, 1, 1, 1, 2, 7, 0, 32767, 32768])) % 65536
        ptt = r.choice([0, 0, 1, 1, 2, 3, 4, 5, 5])
        field = model.Field(
            ptt=ptt, id=seat % 64 if r.random() < 0.9 else r.randrange(64), pm=int(r.random() < 0.1), ptts=int(r.random() < 0.2),
            climax=r.choice([None, None, 6, 127]), side=r.choice([None, None, None, 0, 1]))
        return f"packet {seat} {self.bytes_of(model.TX, model.Message(self.next[place], 0, seat, field))}"

    def bytes_of(self, direction, message):
        """A packet in hex, some with type 4 items; now and then a bit is turned or the end cut."""
        r, f = self.r, message.field
        plain = model.plain(direction, self.ext, message, sound(message.ssrc % 16, r.choice([0, 0, 80, 160, 240])))
        data = bytearray(some_ddc(r, plain, sum(item is not None for item in (f.sqi, f.climax, f.side)))[0])
        if r.random() < 0.1:
            data[r.randrange(len(data))] ^= 1 << r.randrange(8)
        if r.random() < 0.03:
            del data[r.randrange(len(data)) :]
        return r.choice([console.hexed(data), data.hex() or "-"])

    def write(self):
        r = self.r
        head = f"{some_number(r, 65535)} {r.randrange(2**32)} {r.randrange(2**32)} {r.randrange(8)}"
        key = f"{r.choice([0, 5, 63, 64, 255])} {r.randrange(2)} {r.randrange(2)}"
        mss, end = pick(r, "-", "0", "1"), f"{self.audio()} {r.choice([20, 24, 264, 512, 19, 513])}"
        if r.random() < 0.5:
            return f"write tx {head} {key} {pick(r, '-', '0', '127', '128', '256')} {mss} {end}"
        return f"write rx {head} {r.randrange(2)} {key} {r.randrange(2)} {pick(r, '-', '15/0', '16/0', '31/3', '0/4', '7')} {mss} {end}"

    def report(self):
        return f"report {self.seat()} {self.r.randrange(2**32)} {self.audio()} {self.r.choice([20, 24, 264, 512, 0])}"

    def tick(self):
        r = self.r
        ms, room = r.choice([0, 1, 10, 10, 20, 20, 20, 100, 500, 1000, 1001, 65536]), r.choice([208] * 8 + [209, 512, 0, 207, 513])
        return f"tick {ms} {r.randrange(2**32)} {room}"

    def close(self):
        return f"close {self.seat()}"

    def level(self):
        some = [0, -1001, -1000, -980, -850, -701, -700, -699, 32767, -32768, 32768, -32769]
        return self.r.choice(some + 6 * [self.r.randrange(-1200, -599)])

    def received(self):
        return f"received {some_number(self.r, 255)} {self.level()}"

    def quality(self):
        return f"quality {self.level()}"

    def air(self):
        return "air"

    def totals(self):
        return f"totals {self.seat()}"

    def transmitter(self):
        return f"transmitter {pick(self.r, 'healthy', 'healthy', 'unhealthy')}"

    def side(self):
        return f"side {pick(self.r, 'main', 'standby')}"

    def read(self):
        r = self.r
        if r.random() < 0.5:
            return f"read {pick(r, 'tx', 'tx', 'rx')}{self.packet()[8:]}"
        field = model.Field(
            ptt=r.randrange(6), squ=r.randrange(2), id=r.randrange(64), pm=r.randrange(2), ptts=r.randrange(2), sct=r.randrange(2),
            sqi=r.choice([None, (15, 0), (31, 3), (16, 0)]), side=r.choice([None, 0, 1]))
        return f"read rx {self.bytes_of(model.RX, model.Message(r.randrange(65536), 0, 7, field))}"

    def junk(self):
        words = self.line().split(" ")
        words[self.r.randrange(len(words))] = self.r.choice(["", "-", "#", "0", "x", "99999999999", words[0]])
        return self.r.choice([" ", "\t", "  "]).join(words)

    # how often each comes
    KINDS = {"packet": 30, "report": 20, "tick": 10, "open": 20, "close": 1, "received": 4, "transmitter": 3, "side": 3,
             "read": 4, "write": 4, "quality": 2, "air": 8, "totals": 6, "setup": 0.2, "junk": 2}

    def line(self):
        kind = self.r.choices(list(self.KINDS), list(self.KINDS.values()))[0]
        return getattr(self, kind)()


def random_session(lines, seed):
    some = Random(seed)
    return "".join(line + "\n" for line in [PAIR] + [some.line() for _ in range(lines)]).encode("latin-1")


def held(name, given, wrote):
    expected = console.answered(given)
    if wrote == expected:
        return True
    pairs = zip(expected.split(b"\n"), wrote.split(b"\n"))
    number, (want, got) = next((i, p) for i, p in enumerate(pairs, 1) if p[0] != p[1])
    print(f"FAIL: {name}: answer {number}: expected {want[:120]}, got {got[:120]}")
    return False


def in_pieces(given):
    """A few bytes at a time."""
    run = subprocess.Popen(CONSOLE, stdin=subprocess.PIPE, stdout=subprocess.PIPE)
    for at in range(0, len(given), 7):
        run.stdin.write(given[at : at + 7])
        run.stdin.flush()
        time.sleep(0.001)
    return run.communicate()[0]


def main():
    asked = usage.arguments(__doc__, "--save")
    if asked[:1] == ["--save"]:
        if len(asked) != 2:
            sys.exit("tests/driven.py: --save wants a DIR")
        folder = pathlib.Path(asked[1])
        folder.mkdir(parents=True, exist_ok=True)
        for number, (name, given) in enumerate([*edges(), ("a random session", random_session(20_000, 1))]):
            (folder / f"{number:02}.stdin").write_bytes(given)
            (folder / f"{number:02}.stdout").write_bytes(console.answered(given))
        return 0
    lines = int(asked[0]) if asked else 20_000
    cases = [*edges(), ("a random session", random_session(lines, 1))]
    fine = [held(name, given, subprocess.run(CONSOLE, input=given, stdout=subprocess.PIPE).stdout) for name, given in cases]
    given = random_session(100, 2)
    fine.append(held("in pieces", given, in_pieces(given)))
    closed = subprocess.run(" ".join(CONSOLE) + " <&-", shell=True, stdout=subprocess.PIPE)
    fine.append(held("closed input", b"", closed.stdout))
    print(f"{fine.count(True)} of {len(fine)} runs agree")
    return 0 if all(fine) else 1


if __name__ == "__main__":
    sys.exit(main())
