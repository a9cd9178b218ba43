"""The console run on a session, and what its answers say, for soak.py."""

import pathlib
import subprocess
import sys

from handmade import records
from soak_lines import LESSONS, TEST

ROOT = pathlib.Path(__file__).resolve().parent.parent


def answers(lines):
    given = "".join(line + "\n" for line in lines).encode()
    run = subprocess.run([str(ROOT / "ostalenc"), "console"], input=given, capture_output=True, check=True)
    return run.stdout.decode().splitlines()


def fail(what, lines, number):
    sys.exit(f"FAIL: {what} at line {number + 1}: {lines[number][:120]}")


def seat_sets(ticked):
    """The seats closed and due: `ok closed=SEATS due=SEATS used=N HEX`."""
    return [set(part.partition("=")[2]) - {"-"} for part in ticked.split()[1:3]]


def live_seats(ticked):
    return [seats - set(LESSONS) for seats in seat_sets(ticked)]


def seats_and_type(shown):
    """Who is on the air, and the top type: `ok on=SEATS ptt=N`."""
    on, ptt = [part.partition("=")[2] for part in shown.split()[1:]]
    return set(on) - {"-"}, int(ptt)


def reports_in(line, answer):
    """By seat the reports in an answer: the one that was asked for, or those that a tick sent."""
    kind, *words = line.split()
    if kind == "report" and answer.startswith("ok "):
        return {words[0]: bytes.fromhex(answer.split()[2])}
    if kind == "tick" and answer.startswith("ok "):
        return dict(zip(sorted(seat_sets(answer)[1]), records(answer), strict=True))
    return {}


def blotted(report):
    """A report without PTT type, ptt-id and PTTS."""
    field = int.from_bytes(report[16:18], "big") & 0b0001_0000_0010_1111
    return report[:16] + field.to_bytes(2, "big") + report[18:]


def further(report, by):
    """A report whose sequence number is so much further."""
    number = (int.from_bytes(report[2:4], "big") + by) % 65536
    return report[:2] + number.to_bytes(2, "big") + report[4:]


def keys_test(packet):
    """Whether an accepted packet keys Test: its PTT type, in the field behind its CSRC words, and PM 0."""
    data = bytes.fromhex(packet)
    at = 16 + 4 * (data[0] % 16)
    return data[at] >> 5 == TEST and not data[at + 1] & 0x20
