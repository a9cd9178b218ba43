"""Totals and due seats held to a session's own calls and answers, for soak.py: 02, request 14."""

from soak_lines import NAMES_A_SEAT
from soak_told import answers, fail, seat_sets


def distance(last, new):
    return (new - last + 32768) % 65536 - 32768


class Account:
    """An open seat: the packets that it accepted, heard plus missing, the last number, and the ms of ticks since it was due or opened."""

    def __init__(self, period):
        self.period, self.waited = period, 0
        self.packets = self.total = 0
        self.last = None

    def hear(self, packet):
        number = int.from_bytes(packet[2:4], "big")
        self.packets += 1
        self.total += 1 if self.last is None else distance(self.last, number)
        self.last = number

    def told(self):
        return f"ok heard={self.packets} missing={self.total - self.packets}"


def expected(seats, seat):
    if seat not in list("12345678"):
        return "refused 13 cause 0"
    return seats[seat].told() if seat in seats else "refused 14 cause 0"


def note(seats, lines, i, answer):
    """What an accepted call does to the accounts. A seat that is neither closed nor due has waited for less than its period."""
    kind, *words = lines[i].split()
    if kind == "open":
        seats[words[0]] = Account(int(words[2]))
    elif kind == "close":
        del seats[words[0]]
    elif kind == "packet":
        seats[words[0]].hear(bytes.fromhex(words[1]))
    elif kind == "tick":
        closed, due = seat_sets(answer)
        for seat in closed:
            del seats[seat]
        for seat, account in seats.items():
            account.waited += int(words[0])
            if seat in due:
                account.waited = 0
            elif account.waited >= account.period:
                fail(f"seat {seat} is not due after {account.waited} ms", lines, i)


def hold_totals(lines, first):
    """`totals`, asked behind each line of the seat that it names, or of each in turn. Answers how many packets were missing in all."""
    split = [line.split() for line in lines]
    names = [words[1] if words[0] in NAMES_A_SEAT else str(1 + i % 8) for i, words in enumerate(split)]
    given = answers([part for line, seat in zip(lines, names) for part in (line, f"totals {seat}")])
    seats, missing = {}, 0
    for i, (answer, told) in enumerate(zip(given[::2], given[1::2], strict=True)):
        if answer != first[i]:
            fail("`totals`, asked before it, changed the answer", lines, i)
        if answer.startswith("ok"):
            note(seats, lines, i, answer)
            if lines[i].startswith("packet"):
                missing += int(answer.split()[1].partition("=")[2])
        if lines[i].startswith("totals") and answer != told:
            fail(f"{answer}, and asked again {told},", lines, i)
        if told != expected(seats, names[i]):
            fail(f"totals of seat {names[i]} behind it are {told}, not {expected(seats, names[i])},", lines, i)
    return missing
