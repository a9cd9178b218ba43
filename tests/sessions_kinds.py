"""The three kinds of radio, 02's tenth request: each item and each side event on each kind. Bytes of reports are put together by hand:
the main/standby item is 51 and 00 for main, 80 for standby (01, The packet; 000, table 8). See sessions.py."""

from model import COUPLING, NORMAL, TEST
from talk import MAIN, PAIR, SHARED, SINGLE, STANDBY

TITLE = "02, the kinds of radio"
REFUSED = "refused 23 cause 0"
SETUPS = {"single": SINGLE, "pair": PAIR, "shared": SHARED}

# Of a seat's first packet on a radio with main in use: the item, and the answer to it.
FIRST_ITEMS = {
    "single": ((None, "reply=0 side=main"), (MAIN, REFUSED), (STANDBY, REFUSED)),
    "pair": ((None, "reply=0 side=main"), (MAIN, "reply=1 side=main"), (STANDBY, "reply=1 side=standby")),
    "shared": ((None, "reply=0 side=main"), (MAIN, "reply=1 side=main"), (STANDBY, REFUSED)),
}
# The same with standby in use; a single radio never has it.
ON_STANDBY = {
    "pair": ((None, "reply=0 side=standby"), (MAIN, "reply=1 side=main"), (STANDBY, "reply=1 side=standby")),
    "shared": ((None, "reply=0 side=standby"), (MAIN, "reply=1 side=standby"), (STANDBY, REFUSED)),
}
# A side event's answer, and the words of a report behind it: off, X, and the item where X is 1.
EVENTS = {
    "single": (("main", REFUSED, "00000000"), ("standby", REFUSED, "00000000"), ("main", REFUSED, "00000000")),
    "pair": (("main", "ok", "00015100"), ("standby", "ok", "00015180"), ("main", "ok", "00015100")),
    "shared": (("main", "ok", "00015100"), ("standby", "ok", "00015100"), ("main", "ok", "00015100")),
}


def first_items(s):
    for kind, answers in FIRST_ITEMS.items():
        s.session(f"{TITLE}: {kind}: each item of a live seat's first packet, and of a lesson seat's", SETUPS[kind])
        s.open("12378")
        for seat, (item, expected) in zip((1, 2, 3), answers):
            s.packet(seat, expected, id=0, mss=item)
            if expected != REFUSED:
                s.say("side main", REFUSED if kind == "single" else "ok")
        for seat, item in ((7, MAIN), (8, STANDBY), (7, STANDBY), (8, MAIN)):
            s.packet(seat, REFUSED, id=0, mss=item)
        s.packet(7, "reply=0 side=main", id=0)


def on_standby(s):
    for kind, answers in ON_STANDBY.items():
        s.session(f"{TITLE}: {kind}: each item while standby is in use", SETUPS[kind])
        s.open("1237")
        for seat, (item, expected) in zip((1, 2, 3), answers):
            s.say("side standby", "ok")
            s.packet(seat, expected, id=0, mss=item)
        s.packet(7, REFUSED, id=0, mss=MAIN)


def events(s):
    for kind, answers in EVENTS.items():
        s.session(f"{TITLE}: {kind}: each side event, and the item in the report behind it", SETUPS[kind])
        s.open("1")
        for side, expected, words in answers:
            s.say(f"side {side}", expected)
            s.say("report 1 0 - 20", f"0000006401670001{words}")


def item_of_one(s):
    s.session(f"{TITLE}: shared: an item of 1 is refused behind 19 to 22, and changes nothing", SHARED)
    s.open("2")
    s.packet(2, REFUSED, ptt=NORMAL, mss=STANDBY, sequence=50, ssrc=9)
    s.note("a refused first packet fixes neither SSRC nor sequence")
    s.packet(2, "missing=0 reply=1 side=main", mss=MAIN, sequence=10)
    s.packet(2, "refused 19 cause 0", mss=STANDBY, sequence=10, ssrc=3, id=3)
    s.packet(2, "refused 20 cause 0", mss=STANDBY, sequence=10, id=3)
    s.packet(2, "refused 21 cause 0", mss=STANDBY, sequence=11, ptt=COUPLING, id=3)
    s.packet(2, "refused 22 cause 0", mss=STANDBY, sequence=11, ptt=NORMAL, id=3)
    s.packet(2, REFUSED, mss=STANDBY, sequence=11, ptt=NORMAL)
    s.air("-", 0)
    s.note("the item before it is still 0")
    s.packet(2, "missing=0 reply=0 side=main", mss=MAIN, sequence=11)
    s.note("it gives the seat no time: 2000 ms after the last accepted packet it is closed")
    s.tick(1000, due="2")
    s.packet(2, REFUSED, mss=STANDBY)
    s.tick(1000, closed="2")


def item_of_zero(s):
    s.session(f"{TITLE}: shared: an item of 0 is a value that can differ, and moves nothing", SHARED)
    s.open("12")
    s.packet(1, "reply=0 side=main", id=0)
    s.packet(1, "reply=1 side=main", id=0, mss=MAIN)
    s.packet(1, "reply=0 side=main", id=0, mss=MAIN)
    s.say("side standby", "ok")
    s.note("neither a repeat, nor one behind a packet without, nor another seat's first moves the radio back to main")
    s.packet(1, "reply=0 side=standby", id=0, mss=MAIN)
    s.packet(1, "reply=1 side=standby", id=0)
    s.packet(1, "reply=1 side=standby", id=0, mss=MAIN)
    s.packet(2, "reply=1 side=standby", ptt=NORMAL, mss=MAIN, audio=80)
    assert s.answers[-1].endswith("audio=" + bytes((0x20 + i) for i in range(80)).hex().upper())
    s.all_told("12", ptt=NORMAL, id=2, side=MAIN)
    s.say("close 1", "ok")
    s.open("1")
    s.packet(1, "reply=1 side=standby", id=0, mss=MAIN)
    s.say("side main", "ok")
    s.packet(1, "reply=0 side=main", id=0, mss=MAIN)
    s.told(1, side=MAIN)


def item_on_a_pair(s):
    s.session(f"{TITLE}: pair: the same items and events move it")
    s.open("12")
    s.packet(1, "reply=1 side=main", id=0, mss=MAIN)
    s.say("side standby", "ok")
    s.packet(1, "reply=0 side=standby", id=0, mss=MAIN)
    s.packet(1, "reply=1 side=standby", id=0)
    s.packet(1, "reply=1 side=main", id=0, mss=MAIN)
    s.packet(1, "reply=1 side=standby", id=0, mss=STANDBY)
    s.all_told("12", side=STANDBY)
    s.packet(2, "reply=1 side=main", id=0, mss=MAIN)
    s.all_told("12", side=MAIN)


def sent_by_ticks(s):
    s.session(f"{TITLE}: shared: a tick's reports carry 0 while standby is in use, and are as long as a pair's", SHARED)
    s.open("12345678", sequence=7)
    s.say("side standby", "ok")
    records = "".join(f"0014907B000700000000{100 * seat:08X}0167000100015100" for seat in range(1, 9))
    s.say("tick 200 0 208", f"ok closed=- due=12345678 used=176 {records}")
    s.say("received 1 -850", "ok")
    s.say("tick 200 0 207", "refused 26 cause 0")
    records = "".join(f"0018907B000800000000{100 * seat:08X}016700021001113851000000" for seat in range(1, 9))
    s.say("tick 200 0 208", f"ok closed=- due=12345678 used=208 {records}")


def with_the_class(s):
    """Demand 3 on a shared radio: the tower is told the same without the trainee, and with him, whatever he sends."""
    told = "ok len=20 907B000000000000000000640167000120415100"
    s.session(f"{TITLE}: shared: the tower alone", SHARED)
    s.open("1")
    s.say("side standby", "ok")
    s.packet(1, "reply=1 side=standby", ptt=NORMAL)
    s.say("report 1 0 - 20", told)
    s.session(f"{TITLE}: shared: the tower with a trainee, whose items are refused", SHARED)
    s.open("17")
    s.packet(7, REFUSED, ptt=TEST, mss=MAIN)
    s.packet(7, "reply=1 side=main", ptt=TEST)
    s.say("side standby", "ok")
    s.packet(7, REFUSED, ptt=TEST, mss=STANDBY)
    s.packet(1, "reply=1 side=standby", ptt=NORMAL)
    s.say("report 1 0 - 20", told)


def kinds(s):
    for part in (first_items, on_standby, events, item_of_one, item_of_zero, item_on_a_pair, sent_by_ticks, with_the_class):
        part(s)
