"""One call for a tick and its reports, 02's sixth request. What is expected is put together by hand: a record is a length of two bytes
(RFC 4571; document 003, table 5) and a report, whose bytes 01 gives (The packet, Report to a seat). See sessions.py."""

from model import EMERGENCY, NORMAL, OFF, TEST
from talk import SINGLE, SUMMATION

TITLE = "02, a tick and its reports"
NO_ROOM = "refused 26 cause 0"


def sends(s, line, expected, *records):
    """A tick's whole answer, its records in hexadecimal with blanks in them."""
    s.say(line, f"{expected} {''.join(records).replace(' ', '') or '-'}")


def byte_by_byte(s):
    s.session(f"{TITLE}: length, version and payload type, sequence, timestamp, SSRC, extension type, word count, words", SINGLE)
    s.open("1", sequence=258)
    sends(s, "tick 199 7 208", "ok closed=- due=- used=0")
    sends(s, "tick 1 4294967295 208", "ok closed=- due=1 used=22", "0014 907B 0102 FFFFFFFF 00000064 0167 0001 0000 0000")
    s.note("Normal, id 1; with more room than it needs")
    s.packet(1, ptt=NORMAL)
    sends(s, "tick 200 1 512", "ok closed=- due=1 used=22", "0014 907B 0103 00000001 00000064 0167 0001 2040 0000")
    s.note("SQU and SCT, and the quality of -850; it is R2S, payload type 123, while a signal is received too")
    s.say("received 2 -850", "ok")
    sends(s, "tick 200 160 208", "ok closed=- due=1 used=22", "0014 907B 0104 000000A0 00000064 0167 0001 3049 1138")


def items(s):
    s.session(f"{TITLE}: a pair has the side in its records, and two words while it receives a signal: 2 + 24 bytes")
    s.open("1")
    s.say("side standby", "ok")
    sends(s, "tick 200 0 208", "ok closed=- due=1 used=22", "0014 907B 0000 00000000 00000064 0167 0001 0001 5180")
    s.say("received 1 -850", "ok")
    sends(s, "tick 200 0 208", "ok closed=- due=1 used=26", "0018 907B 0001 00000000 00000064 0167 0002 1001 1138 5180 0000")
    s.say("received 0 -850", "ok")
    sends(s, "tick 200 0 208", "ok closed=- due=1 used=22", "0014 907B 0002 00000000 00000064 0167 0001 0001 5180")


def rising(s):
    s.session(f"{TITLE}: lowest seat first, however they were opened, with one timestamp; a seat that is not due gets none", SUMMATION)
    s.open("8", sequence=80)
    s.open("3", sequence=30)
    s.open("5", period=1000)
    s.open("1", sequence=10)
    s.packet(3, ptt=NORMAL)
    s.packet(1, ptt=NORMAL)
    s.packet(8, pm=1)
    s.note("Normal on 1 and 3: each is told its own id, seat 8 the smaller and its own PM; PTTS is 1")
    sends(
        s, "tick 200 160 208", "ok closed=- due=138 used=66",
        "0014 907B 000A 000000A0 00000064 0167 0001 2051 5100",
        "0014 907B 001E 000000A0 0000012C 0167 0001 20D1 5100",
        "0014 907B 0050 000000A0 00000320 0167 0001 2071 5100",
    )
    s.note("the numbers of the three went one further, that of seat 5 didn't")
    for seat, number in ((1, 11), (3, 31), (5, 0), (8, 81)):
        s.say(f"report {seat} 0 - 20", f"ok len=20 907B{number:04X}")


def one_by_one(s):
    s.session(f"{TITLE}: each of eight open seats is due by itself: one record, and its number alone goes further", SINGLE)
    for seat in "12345678":
        s.open(seat, period=100, sequence=f"{seat}00")
        s.tick(1)
    s.tick(91)
    for seat in range(1, 9):
        record = f"0014 907B {100 * seat:04X} 00000000 {100 * seat:08X} 0167 0001 0000 0000"
        sends(s, "tick 1 0 208", f"ok closed=- due={seat} used=22", record)
    for seat in range(1, 9):
        s.say(f"report {seat} 0 - 20", f"ok len=20 907B{100 * seat + 1:04X}")


def all_eight(s):
    s.session(f"{TITLE}: eight due seats with both items fill 208 bytes; 207 are refused, and move no number")
    s.open("12345678", sequence=4095)
    s.say("received 1 -850", "ok")
    for number, timestamp in ((4095, 0), (4096, 65536)):
        s.say(f"tick 200 {timestamp} 207", NO_ROOM)
        records = (f"0018 907B {number:04X} {timestamp:08X} {100 * seat:08X} 0167 0002 1001 1138 5100 0000" for seat in range(1, 9))
        sends(s, f"tick 200 {timestamp} 208", "ok closed=- due=12345678 used=208", *records)


def room(s):
    s.session(f"{TITLE}: 24, then 26 exactly if the room is under 208, whoever is due", SINGLE)
    s.note("nobody is open")
    for size in (0, 1, 207):
        s.say(f"tick 0 0 {size}", NO_ROOM)
    for size in (208, 209, 512):
        sends(s, f"tick 0 0 {size}", "ok closed=- due=- used=0")
    s.note("24 comes before 26")
    for ms, size in ((1001, 0), (1001, 207), (1001, 208), (65535, 0), (65535, 512)):
        s.say(f"tick {ms} 0 {size}", "refused 24 cause 0")
    s.say("tick 1000 0 207", NO_ROOM)
    s.note("one seat is due: its 22 bytes would fit, and the room is asked for all the same")
    s.open("1")
    for size in (22, 26, 207):
        s.say(f"tick 200 0 {size}", NO_ROOM)
    sends(s, "tick 200 0 208", "ok closed=- due=1 used=22", "0014 907B 0000 00000000 00000064 0167 0001 0000 0000")


def refused(s):
    s.session(f"{TITLE}: a refused tick moves nothing: no time, no closing, no number, not the air")
    s.open("1", multiplier=2, sequence=7)
    s.open("2", sequence=9)
    s.packet(1, ptt=NORMAL)
    for line, expected in (("tick 400 0 207", NO_ROOM), ("tick 1001 0 512", "refused 24 cause 0"), ("tick 1000 0 0", NO_ROOM)):
        s.say(line, expected)
        s.air("1", NORMAL)
    s.say("report 1 0 - 20", "ok len=20 907B0007")
    s.tick(199)
    s.say("tick 201 0 207", NO_ROOM)
    sends(
        s, "tick 1 0 208", "ok closed=- due=12 used=44",
        "0014 907B 0008 00000000 00000064 0167 0001 2041 5100",
        "0014 907B 0009 00000000 000000C8 0167 0001 2041 5100",
    )
    s.say("tick 200 0 207", NO_ROOM)
    sends(s, "tick 200 0 208", "ok closed=1 due=2 used=22", "0014 907B 000A 00000000 000000C8 0167 0001 0001 5100")


def closings(s):
    s.session(f"{TITLE}: reports show the bench after the closings, of a higher seat and of a lower one")
    s.open("27", period=40)
    s.open("5", period=20, multiplier=2)
    s.packet(2, ptt=NORMAL)
    s.packet(5, ptt=EMERGENCY)
    s.told(2, ptt=EMERGENCY, id=5)
    s.note("seat 5's period runs out too, but it is closed; seats 2 and 7 are told Normal, id 2")
    sends(
        s, "tick 40 0 208", "ok closed=5 due=27 used=44",
        "0014 907B 0001 00000000 000000C8 0167 0001 2081 5100",
        "0014 907B 0000 00000000 000002BC 0167 0001 2081 5100",
    )
    s.air("2", NORMAL)
    s.note("the last keyed seat is closed while seat 7 is due: it is told off")
    s.packet(7, id=0)
    sends(s, "tick 360 0 208", "ok closed=2 due=7 used=22", "0014 907B 0001 00000000 000002BC 0167 0001 0001 5100")
    s.air("-", OFF)
    s.note("all are closed: nobody is due, and nothing is written")
    sends(s, "tick 1000 0 208", "ok closed=7 due=- used=0")


def going_on(s):
    s.session(f"{TITLE}: ticks and single reports use one sequence, which wraps; another seat's stays", SINGLE)
    s.open("1", sequence=65533)
    s.open("2", period=1000, sequence=20)
    numbered = "0014 907B {} 00000000 00000064 0167 0001 0000 0000"
    for number, following in (("FFFD", "FFFE"), ("FFFF", "0000")):
        sends(s, "tick 200 0 208", "ok closed=- due=1 used=22", numbered.format(number))
        s.say("report 1 0 - 20", f"ok len=20 907B{following}")
    s.note("a tick in which it is not due, one of 0, and a refused report use up none")
    s.tick(199)
    s.tick(0)
    s.say("report 1 0 - 19", NO_ROOM)
    sends(s, "tick 1 0 208", "ok closed=- due=1 used=22", numbered.format("0001"))
    s.say("report 2 0 - 20", "ok len=20 907B0014")
    s.note("opened again it begins anew")
    s.say("close 1", "ok")
    s.open("1", sequence=500)
    sends(s, "tick 200 0 208", "ok closed=- due=1 used=22", numbered.format("01F4"))


def live_record(s):
    """02: "Under demand 3 each live seat's record is compared by itself." """
    tower, trainee = (f"0014 907B 0000 00000000 {ssrc} 0167 0001 2041 5100" for ssrc in ("00000064", "000002BC"))
    s.session(f"{TITLE}: the tower alone")
    s.open("1")
    s.packet(1, ptt=NORMAL)
    sends(s, "tick 200 0 208", "ok closed=- due=1 used=22", tower)
    s.session(f"{TITLE}: the tower's record is the same with a trainee, who keys Test; the bytes used are not")
    s.open("17")
    s.packet(7, ptt=TEST)
    s.packet(1, ptt=NORMAL)
    sends(s, "tick 200 0 208", "ok closed=- due=17 used=44", tower, trainee)


def sending(s):
    for part in (byte_by_byte, items, rising, one_by_one, all_eight, room, refused, closings, going_on, live_record):
        part(s)
