"""Long random sessions of well-formed calls, for soak.py."""

import itertools
import random

from handmade import built, some_ddc, words_of

LESSONS = "78"
MODES = list(itertools.product(("single", "pair", "shared"), ("lockout", "summation"), ("interruption", "summation")))
# how often each call comes
KINDS = {"packet": 40, "report": 26, "tick": 5, "open": 6, "close": 1, "received": 4, "transmitter": 2, "side": 2, "quality": 1, "air": 4, "totals": 4}
NAMES_A_SEAT = ("open", "close", "packet", "report", "totals")
TEST = 5


def a_packet(r, seat, sequence):
    """A TX packet, now and then with a bit turned or its end cut; and the same without a type 4 item that is stepped over."""
    ptt = r.choice([0, 0, 1, 1, 2, 3, 4, TEST, TEST, TEST])
    items = r.sample([bytes([0x21, 0x80 + r.randrange(128)]), bytes([0x51, r.choice([0, 0x80])])], r.choice([0, 0, 0, 1, 2]))
    field = ptt << 13 | seat << 6 | (r.random() < 0.1) << 5 | (r.random() < 0.2) << 4 | bool(items)
    audio = bytes(r.choice([0, 0, 80, 160, 240]))
    plain = built(kind=8 if audio else 123, sequence=sequence, ssrc=seat, words=words_of(field, b"".join(items)), payload=audio)
    whole, same = some_ddc(r, plain, len(items))
    data = bytearray(whole)
    if r.random() < 0.08:
        data[r.randrange(len(data))] ^= 1 << r.randrange(8)
    if r.random() < 0.03:
        del data[r.randrange(len(data)) :]
    without = plain if same and data == whole else data
    return data.hex() or "-", without.hex() or "-"


def session(count, seed):
    """The lines, and by their number those that hold a type 4 item, without it."""
    r = random.Random(seed)
    lines, sequence = [f"setup {LESSONS} 0167 {' '.join(MODES[seed % len(MODES)])}"], [0] * 10
    without = {}
    while len(lines) < count:
        seat = r.choice([1, 2, 3, 4, 5, 6, 7, 8, 7, 8] * 3 + [0, 9])
        kind = r.choices(list(KINDS), list(KINDS.values()))[0]
        if kind == "packet":
            sequence[seat] = (sequence[seat] + r.choice([1] * 16 + [2, 9, 0, 32767])) % 65536
            data, plain = a_packet(r, seat, sequence[seat])
            if plain != data:
                without[len(lines)] = f"packet {seat} {plain}"
            lines.append(f"packet {seat} {data}")
        elif kind == "report":
            audio = "00" * r.choice([0, 0, 80, 160, 240, 1]) or "-"
            lines.append(f"report {seat} {r.randrange(2**32)} {audio} {r.choice([20, 24, 264, 512, 0])}")
        elif kind == "tick":
            room = r.choice([208] * 12 + [209, 512, 512, 0, 24, 207])
            lines.append(f"tick {r.choice([0, 1, 10, 20, 20, 100, 1000, 1001])} {r.randrange(2**32)} {room}")
        elif kind == "open":
            call = r.choice(["txrx"] * 5 + ["idle", "rxonly", "coupling"])
            lines.append(f"open {seat} {call} {r.choice([200, 1000, 1000, 1000, 1000, 19])} {r.choice([2, 50, 50, 50, 50, 50, 51])} {r.randrange(2**32)} {r.randrange(65536)}")
        elif kind == "air":
            lines.append("air")
        else:
            level = r.choice([-32768, 32767] + 14 * [r.randrange(-1200, -500)])
            words = {"close": seat, "totals": seat, "received": f"{r.choice([0, 1, 2, 255])} {level}", "quality": level,
                     "transmitter": r.choice(["healthy", "healthy", "healthy", "unhealthy"]), "side": r.choice(["main", "standby"])}
            lines.append(f"{kind} {words[kind]}")
    return lines, without


def names_a_lesson(line):
    words = line.split()
    return words[0] in NAMES_A_SEAT and words[1] in LESSONS
