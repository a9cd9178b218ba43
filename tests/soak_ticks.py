"""What a tick sends, and that ticks add up, for soak.py: 02, requests 6 and 4."""

import random

from soak_told import answers, blotted, fail, further, reports_in, seat_sets

R2S = 123


def well_answered(line, answer, reports):
    """Of a tick. 02: "24, then 26 exactly if the buffer is under 208 bytes", whatever the bench holds; else R2S reports are sent, and
    no other byte."""
    ms, _, room = map(int, line.split()[1:])
    if ms > 1000 or room < 208:
        return answer == f"refused {24 if ms > 1000 else 26} cause 0"
    used = sum(2 + len(report) for report in reports)
    return f" used={used} " in answer and all(report[1] == R2S and len(report) in (20, 24) for report in reports)


def hold_reports(lines, first):
    """Each report has its seat's next sequence number, the timestamp of its line and its seat's SSRC. Answers how many ticks sent."""
    own, sent = {}, 0
    for i, (line, answer) in enumerate(zip(lines, first)):
        kind, *words = line.split()
        reports = reports_in(line, answer)
        if kind == "tick":
            sent += len(reports)
            if not well_answered(line, answer, reports.values()):
                fail("a tick refused otherwise than by its ms and its room, or one that sent other things than reports", lines, i)
        if kind == "open" and answer.startswith("ok "):
            own[words[0]] = int(words[4]), int(words[5])
        for seat, report in reports.items():
            ssrc, number = own[seat]
            if [int.from_bytes(report[at:end], "big") for at, end in ((2, 4), (4, 8), (8, 12))] != [number, int(words[1]), ssrc]:
                fail("a report with another sequence number, timestamp or SSRC", lines, i)
            own[seat] = ssrc, (number + 1) % 65536
    return sent


class Ahead:
    """A session with other ticks or more reports than the first: how much further each seat's sequence number is in it."""

    def __init__(self):
        self.by = {}

    def of(self, seat):
        return self.by.get(seat, 0)

    def move(self, seat):
        self.by[seat] = self.of(seat) + 1

    def answer(self, line, answer):
        """What the line is to be answered, where it was answered this in the first session."""
        if line.startswith("open ") and answer.startswith("ok "):
            self.by.pop(line.split()[1], None)
        for seat, report in reports_in(line, answer).items():
            answer = answer.replace(report.hex().upper(), further(report, self.of(seat)).hex().upper())
        return answer


def hold_singles(lines, first):
    """Behind each tick its due seats are asked for by single reports: they tell the same, with the next sequence number."""
    sent = [reports_in(line, answer) if line.startswith("tick ") else {} for line, answer in zip(lines, first)]
    asked = [[f"report {seat} {line.split()[2]} - 24" for seat in reports] for line, reports in zip(lines, sent)]
    given = iter(answers([part for line, more in zip(lines, asked) for part in (line, *more)]))
    ahead = Ahead()
    for i, reports in enumerate(sent):
        if next(given) != ahead.answer(lines[i], first[i]):
            fail("single reports before it changed the answer, and not by their number", lines, i)
        for seat, report in reports.items():
            ahead.move(seat)
            if next(given) != f"ok len={len(report)} {further(report, ahead.of(seat)).hex().upper()}":
                fail(f"a single report to seat {seat} behind it told other things", lines, i)


def in_two(r, line, answer):
    """A tick that was not refused, as two ticks; any other line as it is."""
    if not line.startswith("tick ") or answer.startswith("refused "):
        return [line]
    _, ms, timestamp, room = line.split()
    first = r.randint(0, int(ms))
    return [f"tick {first} {timestamp} {room}", f"tick {int(ms) - first} {timestamp} {room}"]


def sent_alike(merged, first, second, closes, ahead):
    """Whether two ticks sent what the merged one did: to a seat that is due in the second the same, with the next number if it was
    due in the first too; to one that is due in the first alone the same, but for the air where the second closes a seat."""
    for seat, report in merged.items():
        if seat in second and second[seat] != further(report, ahead.of(seat) + (seat in first)):
            return False
        if seat not in second:
            pair = first[seat], further(report, ahead.of(seat))
            if len(set(map(blotted, pair) if closes else pair)) != 1:
                return False
    return True


def hold_ticks(lines, first, seed):
    """Answers how many ticks were made two, in how many of them the one difference showed, and how often a number ran further."""
    r = random.Random(seed)
    parts = [in_two(r, line, answer) for line, answer in zip(lines, first)]
    given = iter(answers([part for two in parts for part in two]))
    ahead, ticks, differing, ran = Ahead(), 0, 0, 0
    for i, two in enumerate(parts):
        told = [next(given) for _ in two]
        if len(told) == 1:
            if told[0] != ahead.answer(lines[i], first[i]):
                fail("two ticks before it, where there was one, changed the answer", lines, i)
            continue
        (closed_1, due_1), (closed_2, due_2) = map(seat_sets, told)
        difference = due_1 & closed_2
        if [closed_1 | closed_2, (due_1 | due_2) - difference] != seat_sets(first[i]):
            fail("two ticks in its place told other seats", lines, i)
        if not sent_alike(reports_in(lines[i], first[i]), *map(reports_in, two, told), closed_2, ahead):
            fail("two ticks in its place sent other reports", lines, i)
        for seat in due_1 & (due_2 | closed_2):
            ahead.move(seat)
            ran += 1
        ticks += 1
        differing += bool(difference)
    return ticks, differing, ran
