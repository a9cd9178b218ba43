"""Who is on the air as the record keeps it, 02's fifth request: `air` behind every kind of call, accepted and refused. See sessions.py."""

from model import EMERGENCY, NORMAL, OFF, PRIORITY, TEST
from sessions_keyings import asks_behind, keyings, keys
from talk import SINGLE, STANDBY, SUMMATION, sound, without_sequence

AUDIO = sound(1, 80).hex().upper()


def nobody(s):
    s.session("02, the air in the record: nobody at the start, and no call without a keying puts anybody there")
    s.air("-", OFF)
    asks_behind(
        s, "-", OFF,
        ("open 1 txrx 200 10 100 0", "ok id=1"), ("open 1 txrx 200 10 100 0", "refused 15"),
        ("open 2 coupling 200 10 200 0", "ok id=2"), ("tick 200 0 208", "ok closed=- due=12"), ("tick 1001 0 208", "refused 24"),
        ("received 1 -850", "ok"), ("side standby", "ok"), ("transmitter unhealthy", "ok"), ("transmitter healthy", "ok"),
        ("report 1 0 - 24", "ok len=24"), ("report 1 0 - 23", "refused 26"), ("close 2", "ok"), ("close 2", "refused 14"),
    )
    keys(s, 1, "-", OFF)
    s.note("PTT on with PM 1 is no keying either")
    keys(s, 1, "-", OFF, ptt=NORMAL, pm=1)


def untouched(s):
    s.session("02, the air in the record: seat 1 keys Normal and stays on the air through every call that is not about its keying")
    s.open("1")
    keys(s, 1, "1", NORMAL, ptt=NORMAL)
    s.note("open and close: accepted, and each of their refusals")
    asks_behind(
        s, "1", NORMAL,
        ("open 2 txrx 200 10 200 0", "ok id=2"), ("open 9 txrx 200 10 900 0", "refused 13"), ("open 1 txrx 200 10 100 0", "refused 15"),
        ("open 3 txrx 19 10 300 0", "refused 16"), ("open 7 coupling 200 10 700 0", "refused 17"), ("open 3 coupling 200 10 300 0", "ok id=3"),
        ("open 4 coupling 200 10 400 0", "refused 18 cause 2005"), ("close 2", "ok"), ("close 2", "refused 14"), ("close 9", "refused 13"),
    )
    s.note("packets: another seat's without a keying; its own with the same keying, a side and audio")
    keys(s, 3, "1", NORMAL)
    keys(s, 1, "1", NORMAL, "side=standby audio=1011", ptt=NORMAL, mss=STANDBY, audio=80)
    s.note("ticks that close nobody, accepted and refused; the radio's events")
    asks_behind(
        s, "1", NORMAL,
        ("tick 0 0 208", "ok closed=- due=-"), ("tick 199 0 208", "ok closed=- due=-"), ("tick 1 0 208", "ok closed=- due=13"),
        ("tick 1001 0 208", "refused 24"), ("tick 200 0 207", "refused 26"),
        ("received 2 -850", "ok"), ("received 0 0", "ok"), ("side main", "ok"), ("side standby", "ok"), ("transmitter healthy", "ok"),
    )
    s.note("reports: accepted, and each of their refusals")
    asks_behind(
        s, "1", NORMAL,
        ("report 1 0 - 20", "ok len=20"), ("report 3 0 - 20", "ok len=20"), ("report 9 0 - 20", "refused 13"),
        ("report 2 0 - 20", "refused 14"), (f"report 1 0 {AUDIO} 100", "refused 25"), ("report 1 0 - 19", "refused 26"),
    )
    s.note("what is no call of the bench, and what is no call")
    asks_behind(
        s, "1", NORMAL,
        ("read tx 907B000200000000000000010167000100400000", "TX seq=2"), ("write tx 2 0 1 0 1 0 0 - - - 20", "ok len=20"),
        ("quality -850", "ok quality=7"), ("air", "ok on=1 ptt=1"), ("air 1", "error: expected air"), ("setup", "error: expected setup"),
        ("close", "error: expected close SEAT"),
    )


def single(s):
    s.session("02, the air in the record: a new set-up, and nobody is on the air", SINGLE)
    s.air("-", OFF)
    s.open("1")
    keys(s, 1, "1", NORMAL, ptt=NORMAL)
    s.note("on a single radio the side event and the item are refused")
    asks_behind(s, "1", NORMAL, ("side main", "refused 23"), ("side standby", "refused 23"))
    keys(s, 1, "1", NORMAL, "refused 23", mss=STANDBY)


def refused_packets(s):
    s.session("02, the air in the record: refused packets leave it; each of these is Emergency, and accepted would take the air", SINGLE)
    s.open("127")
    s.open("4", "rxonly")
    keys(s, 1, "1", NORMAL, ptt=NORMAL)
    s.packet(2, sequence=10)
    good = s.bytes_of(2, ptt=EMERGENCY, sequence=11)
    changed = (
        (1, good[:11]), (2, b"\x50" + good[1:]), (3, b"\xB0" + good[1:]), (4, b"\x80" + good[1:]), (5, good[:1] + b"\x09" + good[2:]),
        (6, good[:15]), (7, good[:12] + b"\x01\x68" + good[14:]), (8, good[:14] + b"\x00\x10" + good[16:]), (9, good[:19]),
        (10, good[:16] + bytes([good[16] | 0x10]) + good[17:]), (11, good[:19] + b"\x01"), (12, good + b"\x00"),
    )
    for number, packet in changed:
        s.raw(2, packet, f"refused {number} cause {2012 if number in (10, 11) else 0}")
        s.air("1", NORMAL)
    for seat, number in ((9, 13), (3, 14)):
        s.raw(seat, good, f"refused {number} cause 0")
        s.air("1", NORMAL)
    keys(s, 2, "1", NORMAL, "refused 19", sequence=11, ssrc=9, ptt=EMERGENCY)
    keys(s, 2, "1", NORMAL, "refused 20", sequence=10, ptt=EMERGENCY)
    s.note("21: one who may receive only, and a trainee; 22: another's id; 23: an item on a single radio")
    keys(s, 4, "1", NORMAL, "refused 21", id=0, ptt=EMERGENCY)
    keys(s, 7, "1", NORMAL, "refused 21", ptt=EMERGENCY)
    keys(s, 2, "1", NORMAL, "refused 22", sequence=11, id=1, ptt=EMERGENCY)
    keys(s, 2, "1", NORMAL, "refused 23", sequence=11, mss=STANDBY, ptt=EMERGENCY)
    s.note("accepted, it takes the air; and a refused packet that says off doesn't free it")
    keys(s, 2, "2", EMERGENCY, sequence=11, ptt=EMERGENCY)
    keys(s, 2, "2", EMERGENCY, "refused 20", sequence=11)
    keys(s, 2, "2", EMERGENCY, "refused 22", sequence=12, id=1)
    keys(s, 2, "1", NORMAL, sequence=12)


def silent(s):
    s.session("02, the air in the record: a tick that closes the seat on the air leaves it to the next, or to nobody")
    s.open("1", period=20, multiplier=2)
    s.open("2")
    s.open("3", period=100, multiplier=2)
    keys(s, 3, "3", TEST, ptt=TEST)
    keys(s, 2, "2", NORMAL, ptt=NORMAL)
    keys(s, 1, "1", EMERGENCY, ptt=EMERGENCY)
    s.note("39 of seat 1's 40 ms; a refused tick takes nothing; the last ms closes it")
    asks_behind(
        s, "1", EMERGENCY,
        ("tick 39 0 208", "ok closed=- due=1"), ("tick 1001 0 208", "refused 24"), ("tick 1 0 207", "refused 26"), ("tick 0 0 208", "ok closed=- due=-"),
    )
    asks_behind(s, "2", NORMAL, ("tick 1 0 208", "ok closed=1 due=-"))
    s.note("seat 3, which was not on the air, is closed; seat 1 is opened again and has heard nothing")
    opened = "open 1 txrx 1000 50 100 0", "ok id=1"
    asks_behind(s, "2", NORMAL, ("tick 160 0 208", "ok closed=3 due=2"), opened, ("tick 1000 0 208", "ok closed=- due=12"))
    asks_behind(s, "-", OFF, ("tick 1000 0 208", "ok closed=2 due=1"), ("tick 1000 0 208", "ok closed=- due=1"))
    s.open("2")
    s.air("-", OFF)


def two_silent(s):
    s.session("02, the air in the record: a tick that closes two of three seats on the air", SUMMATION)
    s.open("12", period=20, multiplier=2)
    s.open("3")
    for seat, on in ((1, "1"), (2, "12"), (3, "123")):
        keys(s, seat, on, NORMAL, ptt=NORMAL)
    asks_behind(s, "3", NORMAL, ("tick 40 0 208", "ok closed=12 due=-"))


def closed(s):
    s.session("02, the air in the record: seats closed by hand")
    s.open("123")
    for seat in (2, 1, 3):
        keys(s, seat, "2", NORMAL, ptt=NORMAL)
    s.note("one that is not on the air, then the one that is; opened again it has to key, and is then the last")
    asks_behind(s, "2", NORMAL, ("close 3", "ok"))
    asks_behind(s, "1", NORMAL, ("close 2", "ok"), ("open 2 txrx 200 10 200 0", "ok id=2"))
    keys(s, 2, "1", NORMAL, ptt=NORMAL)
    asks_behind(s, "2", NORMAL, ("close 1", "ok"))
    asks_behind(s, "-", OFF, ("close 2", "ok"))


def faulty(s):
    s.session("02, the air in the record: nobody while the transmitter is unhealthy; healthy again, the seat whose keying began first")
    s.open("1234")
    keys(s, 3, "3", NORMAL, ptt=NORMAL)
    keys(s, 1, "3", NORMAL, ptt=NORMAL)
    s.note("in the fault: seat 3 repeats its keying, seat 2 keys Emergency, refused calls, a tick, seat 2 closed")
    asks_behind(s, "-", OFF, ("transmitter unhealthy", "ok"))
    keys(s, 3, "-", OFF, "audio=-", ptt=NORMAL, audio=80)
    keys(s, 2, "-", OFF, ptt=EMERGENCY)
    keys(s, 2, "-", OFF, "refused 22", ptt=EMERGENCY, id=1)
    asks_behind(
        s, "-", OFF,
        ("tick 1001 0 208", "refused 24"), ("tick 1 0 208", "ok closed=- due=-"), ("close 2", "ok"), ("transmitter unhealthy", "ok"),
    )
    s.told(4, ptt=OFF, id=0)
    s.note("the fault didn't restart seat 3's keying")
    asks_behind(s, "3", NORMAL, ("transmitter healthy", "ok"), ("transmitter healthy", "ok"))
    s.told(4, ptt=NORMAL, id=3)
    s.note("a keying that ends and begins in the fault is behind seat 1's; a Priority that begins in it is above both")
    asks_behind(s, "-", OFF, ("transmitter unhealthy", "ok"))
    keys(s, 3, "-", OFF)
    keys(s, 3, "-", OFF, ptt=NORMAL)
    asks_behind(s, "1", NORMAL, ("transmitter healthy", "ok"))
    asks_behind(s, "-", OFF, ("transmitter unhealthy", "ok"))
    keys(s, 4, "-", OFF, ptt=PRIORITY)
    asks_behind(s, "4", PRIORITY, ("transmitter healthy", "ok"))


def unmoved(s):
    s.session("02, the air in the record: it is asked and the bench stays as it was: the next report differs in its sequence number alone")
    s.open("12")
    for seat in (1, 2):
        keys(s, seat, "1", NORMAL, ptt=NORMAL)
    before = s.say("report 2 0 - 20", "ok len=20")
    for _ in range(3):
        s.air("1", NORMAL)
    after = s.say("report 2 0 - 20", "ok len=20")
    assert without_sequence(after) == without_sequence(before) and after != before, (before, after)
    s.tick(200, due="12")


def kept_air(s):
    for part in (nobody, untouched, single, keyings, refused_packets, silent, two_silent, closed, faulty, unmoved):
        part(s)
