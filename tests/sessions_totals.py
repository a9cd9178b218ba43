"""Totals of a seat, 02's fourteenth request. Expected numbers are counted by hand from the sequence numbers: heard is how many were accepted since
opening, and with missing it makes 1 plus the distances. See sessions.py."""

from model import NORMAL, TEST
from talk import MAIN, SINGLE

TITLE = "02, totals"
# the largest distance, and the bound of heard plus missing
LEAP, MOST = 32767, 4_000_000_000


def gaps(s):
    s.session(f"{TITLE}: gaps, and packets that are refused")
    s.open("2")
    s.totals(2, 0, 0)
    s.note("the first packet counts 1, whatever its number; a refused one nothing")
    s.packet(2, "refused 22 cause 0", sequence=300, id=3, ptt=NORMAL)
    s.totals(2, 0, 0)
    s.packet(2, sequence=500)
    s.totals(2, 1, 0)
    s.note("500, 501, 505, 506, 516: 1 + 1 + 4 + 1 + 10")
    s.packet(2, "missing=0", sequence=501)
    s.packet(2, "missing=3", sequence=505)
    s.totals(2, 3, 3)
    s.packet(2, "missing=0", sequence=506)
    s.packet(2, "missing=9", sequence=516)
    s.totals(2, 5, 12)
    s.note("late, doubled, of another source, not allowed, cut: each is refused and counts nothing")
    s.packet(2, "refused 20 cause 0", sequence=516)
    s.packet(2, "refused 20 cause 0", sequence=502)
    s.packet(2, "refused 19 cause 0", sequence=517, ssrc=9)
    s.packet(2, "refused 22 cause 0", sequence=600, id=3, ptt=NORMAL)
    s.say("packet 2 907B", "refused 1 cause 0")
    s.totals(2, 5, 12)
    s.note("what was missing when they were refused still is")
    s.packet(2, "missing=83", sequence=600)
    s.totals(2, 6, 95)


def wraps(s):
    s.session(f"{TITLE}: numbers that wrap, and the largest distance")
    s.open("13")
    s.note("65534, 65535, 0, 3: 1 + 1 + 1 + 3")
    for sequence, missing in ((65534, 0), (65535, 0), (0, 0), (3, 2)):
        s.packet(1, f"missing={missing}", sequence=sequence)
    s.totals(1, 4, 2)
    s.note("each 32767 further: 3, 32770, 1, 32768")
    for sequence in (32770, 1, 32768):
        s.packet(1, "missing=32766", sequence=sequence)
    s.totals(1, 7, 98300)
    s.note("32768 further is 32768 back")
    s.packet(1, "refused 20 cause 0", sequence=0)
    s.totals(1, 7, 98300)
    s.note("a seat whose first number is the last of all")
    s.packet(3, sequence=65535)
    s.packet(3, "missing=32766", sequence=32766)
    s.totals(3, 2, 32766)


def begins_anew(s, seat, about=None, **first):
    """A seat that is opened again: 0 and 0, and its first packet counts 1."""
    s.open(str(seat))
    s.totals(seat, 0, 0)
    if about:
        s.note(about)
    s.packet(seat, "missing=0", **first)
    s.totals(seat, 1, 0)


def reopened(s):
    s.session(f"{TITLE}: since opening: closed by its switch, and by silence")
    s.open("4")
    s.packet(4, sequence=10)
    s.packet(4, "missing=4", sequence=15)
    s.totals(4, 2, 4)
    s.note("an opening that is refused clears nothing")
    s.say("open 4 txrx 200 10 0 0", "refused 15 cause 0")
    s.totals(4, 2, 4)
    s.say("close 4", "ok")
    s.say("totals 4", "refused 14 cause 0")
    begins_anew(s, 4, "its first packet again, of another source and with a lower number", sequence=3, ssrc=77)
    s.packet(4, "missing=6", sequence=10, ssrc=77)
    s.totals(4, 2, 6)
    s.tick(1000, due="4")
    s.totals(4, 2, 6)
    s.tick(1000, closed="4")
    s.say("totals 4", "refused 14 cause 0")
    begins_anew(s, 4, sequence=11)


def no_seat(s):
    s.session(f"{TITLE}: 13 and 14, and a new set-up")
    for seat in (0, 9, 255):
        s.say(f"totals {seat}", "refused 13 cause 0")
    for seat in range(1, 9):
        s.say(f"totals {seat}", "refused 14 cause 0")
    s.open("8")
    s.packet(8, sequence=1)
    s.totals(8, 1, 0)
    s.say(SINGLE, "ok")
    s.say("totals 8", "refused 14 cause 0")
    s.open("8")
    s.totals(8, 0, 0)


def of_each_seat(s):
    s.session(f"{TITLE}: each seat's own, and asking changes nothing")
    s.open("17")
    s.packet(1, "reply=1", ptt=NORMAL, sequence=1)
    s.packet(7, "reply=1", ptt=TEST, sequence=40)
    s.packet(7, "missing=9", ptt=TEST, sequence=50)
    s.totals(1, 1, 0)
    s.totals(7, 2, 9)
    s.packet(7, "missing=0", sequence=51)
    s.packet(1, "missing=1", ptt=NORMAL, sequence=3)
    s.totals(1, 2, 1)
    s.totals(7, 3, 9)
    s.air("1", NORMAL)
    s.told(1, ptt=NORMAL, id=1)
    s.totals(1, 2, 1)
    s.told(1, ptt=NORMAL, id=1)
    s.note("neither a tick nor an event counts")
    s.tick(200, due="17")
    s.say("received 1 -850", "ok")
    s.say("transmitter unhealthy", "ok")
    s.say("side standby", "ok")
    s.totals(1, 2, 1)
    s.totals(7, 3, 9)


def to_the_bound(s):
    """At length: 122,075 packets, each but the first the largest distance from the last, and then the bound of 33 from both sides. Run by driven.py."""
    s.session(f"{TITLE}: up to 4,000,000,000, on a single radio", SINGLE)
    s.open("6")
    leaps = (MOST - 1) // LEAP
    for i in range(leaps + 1):
        s.packet(6, f"missing={LEAP - 1 if i else 0}", sequence=i * LEAP % 65536)
    far, room = leaps * LEAP, MOST - 1 - leaps * LEAP
    assert (leaps, room) == (122_074, 1_241)
    s.totals(6, leaps + 1, leaps * (LEAP - 1))
    s.note("one too far is refused by 33, and by 23 first; the next that fits brings 4,000,000,000 and passes")
    s.packet(6, "refused 33 cause 0", sequence=(far + room + 1) % 65536)
    s.packet(6, "refused 33 cause 0", sequence=(far + LEAP) % 65536)
    s.packet(6, "refused 23 cause 0", sequence=(far + room + 1) % 65536, mss=MAIN)
    s.packet(6, "refused 22 cause 0", sequence=(far + room + 1) % 65536, mss=MAIN, ptt=NORMAL, id=5)
    s.totals(6, leaps + 1, leaps * (LEAP - 1))
    s.packet(6, f"missing={room - 1}", sequence=(far + room) % 65536)
    s.totals(6, 122_076, 3_999_877_924)
    s.note("after it none is accepted until the seat is opened again")
    for more in (1, 2, LEAP):
        s.packet(6, "refused 33 cause 0", sequence=(far + room + more) % 65536)
    s.packet(6, "refused 20 cause 0", sequence=(far + room) % 65536)
    s.totals(6, 122_076, 3_999_877_924)
    s.say("report 6 0 - 20", "ok len=20")
    s.say("close 6", "ok")
    begins_anew(s, 6, sequence=9)


def totals(s):
    for part in (gaps, wraps, reopened, no_seat, of_each_seat):
        part(s)
