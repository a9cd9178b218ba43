"""Who is on the air as the record keeps it, 02's fifth request: `air` behind each packet, by who keys what, in each mode. See sessions.py."""

from model import COUPLING, EMERGENCY, NORMAL, OFF, PRIORITY, TEST
from talk import ALL_SUMMATION, COUPLING_SUMMATION, SUMMATION


def asks_behind(s, on, ptt, *lines):
    """Lines with what each answers; behind each of them the same seats are on the air."""
    for line, expected in lines:
        s.say(line, expected)
        s.air(on, ptt)


def keys(s, seat, on, top, expected="ok missing=0", **values):
    """A packet, and who is on the air behind it."""
    s.packet(seat, expected, **values)
    s.air(on, top)


def one_seat(s):
    s.session("02, the air in the record: one seat keys on, off, muted, and another type; the top type is its own")
    s.open("1", "coupling")
    keys(s, 1, "1", NORMAL, ptt=NORMAL)
    s.note("muted, with PTT on; unmuted; off")
    keys(s, 1, "-", OFF, ptt=NORMAL, pm=1)
    keys(s, 1, "1", NORMAL, ptt=NORMAL)
    keys(s, 1, "-", OFF)
    s.note("every type, with no off between them")
    for ptt in (TEST, COUPLING, NORMAL, PRIORITY, EMERGENCY):
        keys(s, 1, "1", ptt, ptt=ptt)
    s.note("off, and muted from off, and PTT off with PM 1")
    keys(s, 1, "-", OFF)
    keys(s, 1, "-", OFF, ptt=EMERGENCY, pm=1)
    keys(s, 1, "-", OFF, pm=1)


def locked_out(s):
    s.session("02, the air in the record, lockout: the keying that began first at the top rank, Test the lowest")
    s.open("12378")
    keys(s, 7, "7", TEST, ptt=TEST)
    s.note("seat 2's Test began later and is locked out; the trainee of seat 8 is behind both")
    keys(s, 2, "7", TEST, ptt=TEST)
    keys(s, 8, "7", TEST, ptt=TEST)
    s.note("Normal takes the air from Test; a second Normal is locked out, and follows when the first goes")
    keys(s, 1, "1", NORMAL, ptt=NORMAL)
    keys(s, 3, "1", NORMAL, ptt=NORMAL)
    keys(s, 7, "1", NORMAL, ptt=TEST, ptts=1)
    keys(s, 1, "3", NORMAL)
    s.note("Emergency over Normal, and back; then Test again, the first of the three, and the next when it is muted")
    keys(s, 1, "1", EMERGENCY, ptt=EMERGENCY)
    keys(s, 1, "3", NORMAL)
    keys(s, 3, "7", TEST)
    keys(s, 7, "2", TEST, ptt=TEST, pm=1)
    s.note("unmuted it begins anew, behind seat 8")
    keys(s, 7, "2", TEST, ptt=TEST)
    keys(s, 2, "8", TEST)
    keys(s, 8, "7", TEST)
    keys(s, 7, "-", OFF)


def summed(s):
    s.session("02, the air in the record, summation: all at the top rank, lowest seat first", SUMMATION)
    s.open("12578")
    s.note("a trainee's Test and the tower's Test are on the air together")
    keys(s, 7, "7", TEST, ptt=TEST)
    keys(s, 1, "17", TEST, ptt=TEST)
    s.note("Normal on 5 and 2: both, and no Test")
    keys(s, 5, "5", NORMAL, ptt=NORMAL)
    keys(s, 2, "25", NORMAL, ptt=NORMAL)
    keys(s, 8, "25", NORMAL, ptt=TEST)
    keys(s, 1, "1", PRIORITY, ptt=PRIORITY)
    keys(s, 1, "125", NORMAL, ptt=NORMAL)
    keys(s, 2, "15", NORMAL, ptt=NORMAL, pm=1)
    asks_behind(s, "5", NORMAL, ("close 1", "ok"))
    asks_behind(s, "78", TEST, ("close 5", "ok"))


def all_eight(s):
    s.session("02, the air in the record, summation: from one seat to all eight", "setup - 0167 pair summation interruption")
    s.open("12345678")
    for seat in range(8, 0, -1):
        keys(s, seat, "12345678"[seat - 1:], NORMAL, ptt=NORMAL)
    keys(s, 5, "5", PRIORITY, ptt=PRIORITY)


def coupled(s):
    s.session("02, the air in the record, coupling summation: Coupling is added under a type above it, which is the top type", COUPLING_SUMMATION)
    s.open("1", "coupling")
    s.open("238")
    keys(s, 8, "8", TEST, ptt=TEST)
    s.note("Coupling is above Test, and nothing is added to it")
    keys(s, 1, "1", COUPLING, ptt=COUPLING)
    s.note("Normal on 3: seat 1 is added; Normal on 2 is locked out")
    keys(s, 3, "13", NORMAL, ptt=NORMAL)
    keys(s, 2, "13", NORMAL, ptt=NORMAL)
    s.note("the added seat muted and unmuted")
    keys(s, 1, "3", NORMAL, ptt=COUPLING, pm=1)
    keys(s, 1, "13", NORMAL, ptt=COUPLING)
    s.note("a Coupling call that keys Normal is not added: its keying began last")
    keys(s, 1, "3", NORMAL, ptt=NORMAL)
    keys(s, 1, "13", NORMAL, ptt=COUPLING)
    keys(s, 2, "12", EMERGENCY, ptt=EMERGENCY)
    keys(s, 2, "13", NORMAL)
    keys(s, 3, "1", COUPLING)
    keys(s, 1, "8", TEST)


def interrupted(s):
    s.session("02, the air in the record, coupling interruption: Coupling is off the air under Normal")
    s.open("1", "coupling")
    s.open("2")
    keys(s, 1, "1", COUPLING, ptt=COUPLING)
    keys(s, 2, "2", NORMAL, ptt=NORMAL)
    keys(s, 2, "1", COUPLING)


def summed_both_ways(s):
    s.session("02, the air in the record, summation both ways: equal ranks and the Coupling seat; reports read it", ALL_SUMMATION)
    s.open("1", "coupling")
    s.open("247")
    keys(s, 1, "1", COUPLING, ptt=COUPLING)
    keys(s, 4, "14", PRIORITY, ptt=PRIORITY)
    keys(s, 2, "124", PRIORITY, ptt=PRIORITY)
    for seat, told in ((1, 2), (2, 2), (4, 4), (7, 2)):
        s.told(seat, ptt=PRIORITY, id=told, ptts=1)
        s.air("124", PRIORITY)
    keys(s, 2, "14", PRIORITY)
    s.all_told("1247", ptt=PRIORITY, id=4, ptts=1)
    keys(s, 4, "1", COUPLING, ptt=PRIORITY, pm=1)
    s.all_told("1247", ptt=COUPLING, id=1, ptts=0)
    keys(s, 1, "-", OFF)
    s.all_told("1247", ptt=OFF, id=0, ptts=0)


def keyings(s):
    for part in (one_seat, locked_out, summed, all_eight, coupled, interrupted, summed_both_ways):
        part(s)
