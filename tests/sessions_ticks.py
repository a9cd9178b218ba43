"""Merged ticks, as 02's fourth request has them and its sixth changes them: no harm but for one difference, and for the sequence
numbers of reports. See sessions.py."""

from model import NORMAL, OFF
from talk import without_sequence


def ticks(s, *told):
    """The ms of each tick, and the seats closed and due."""
    for ms, closed, due in told:
        s.tick(ms, closed, due)


def each_way(s, title, opened, ways, then):
    """The same session for each way in which the time is cut into ticks; a way is the ticks, and by seat the sequence number of the
    report behind them. `opened` and `then` are functions of the sessions. Behind the ticks every way has the same answers but for
    sequence numbers."""
    behind = []
    for told, numbers in ways:
        s.session(f"02: {title}: {', '.join(str(ms) for ms, _, _ in told)}")
        opened(s)
        ticks(s, *told)
        start = len(s.answers)
        for seat, number in numbers.items():
            s.say(f"report {seat} 0 - 20", f"ok len=20 907B{number:04X}")
        then(s)
        behind.append([without_sequence(answer) for answer in s.answers[start:]])
    assert all(answers == behind[0] for answers in behind), (title, behind)


def difference(s):
    """Seat 1 is closed by 400 ms of silence, seat 2 stays and is due in both ticks."""

    def opened(s):
        s.open("1", multiplier=2)
        s.open("2")

    def then(s):
        s.packet(1, "refused 14")
        ticks(s, (199, "-", "-"), (1, "-", "2"))

    apart = (200, "-", "12"), (200, "1", "2")
    merged = ((400, "1", "2"),)
    title = "due in the first and closed in the second is the one difference"
    each_way(s, title, opened, ((apart, {2: 2}), (merged, {2: 1})), then)


def numbers(s):
    """02: the sequence numbers "may run further after two ticks": that of seat 1, due in both; not that of seat 2, due in the second
    alone, nor that of seat 4, due in the first alone. (One that is due and then closed runs on too; it is opened again with a
    number of its own, so that no session can show it.)"""

    def opened(s):
        s.open("4", period=400)
        s.tick(200)
        s.open("1")
        s.open("2", period=500)

    def then(s):
        ticks(s, (99, "-", "-"), (1, "-", "14"), (400, "-", "124"))

    apart = (300, "-", "14"), (200, "-", "12")
    merged = ((500, "-", "124"),)
    title = "a sequence number runs one further for a seat that is due in both"
    each_way(s, title, opened, ((apart, {1: 2, 2: 1, 4: 1}), (merged, {1: 1, 2: 1, 4: 1})), then)


def no_difference(s):
    """Period 300 and 1800 ms of silence: 1700 ms in any ticks leave 100 ms, and a period that ends with them."""

    def opened(s):
        s.open("1", period=300, multiplier=6)
        s.packet(1, ptt=NORMAL)
        s.open("2", period=1000, multiplier=2)

    def then(s):
        s.told(2, ptt=NORMAL, id=1)
        ticks(s, (99, "-", "-"), (1, "1", "-"))
        s.told(2, ptt=OFF, id=0)
        ticks(s, (200, "2", "-"))

    ways = (
        (((1000, "-", "12"), (700, "-", "1")), {1: 2, 2: 1}),
        (((700, "-", "1"), (1000, "-", "12")), {1: 2, 2: 1}),
        (((299, "-", "-"), (1, "-", "1"), (0, "-", "-"), (699, "-", "1"), (1, "-", "2"), (700, "-", "1")), {1: 3, 2: 1}),
    )
    each_way(s, "the same time in other ticks leaves the same bench but for sequence numbers", opened, ways, then)


def zero(s):
    s.session("02: a tick of 0 changes nothing: nobody closed, nobody due, nothing written, at the ends of a period and of the silence too")
    s.tick(0)
    s.open("1", multiplier=2)
    s.tick(0)
    for told in ((199, "-", "-"), (1, "-", "1"), (199, "-", "-")):
        ticks(s, told, (0, "-", "-"))
    s.note("one report was written, number 0")
    s.say("report 1 0 - 20", "ok len=20 907B0001")
    ticks(s, (1, "1", "-"), (0, "-", "-"))
    s.note("a refused tick is no tick: 1001 ms don't count, and the two of which it would be the sum do")
    s.open("1", multiplier=6)
    s.say("tick 1001 0 208", "refused 24 cause 0")
    ticks(s, (1000, "-", "1"), (1, "-", "-"), (198, "-", "-"), (1, "1", "-"))


def merged_ticks(s):
    for part in (difference, numbers, no_difference, zero):
        part(s)
