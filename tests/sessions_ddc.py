"""Type 4 items (DDC), as 02's first request reads them: both directions, and what the bench makes of them. See sessions.py."""

import console
from handmade import CLIMAX, LIKE_ITEMS, MAIN, SQI, STANDBY, built, ddc, sound, words_of
from model import NORMAL, OFF, PRIORITY, TEST
from talk import SINGLE

REFUSED = "refused 11 cause 2012"
# TX Normal, id 2, with X; RX off, SQU, SCT, with X
FIELDS = {"tx": 0x2081, "rx": 0x1009}


def read(s, direction, items, expected, field=None, **rest):
    words = words_of(FIELDS[direction] if field is None else field, items)
    s.say(f"read {direction} {console.hexed(built(words=words, **rest))}", expected)


def each_length(s):
    s.session("02: a type 4 item of any length 0 to 15 is stepped over, in TX and RX alike")
    for length in range(16):
        read(s, "tx", CLIMAX + ddc(length) + STANDBY, "ptt=1 id=2 pm=0 ptts=0 cld=6 mss=1 audio=0")
        read(s, "rx", SQI + ddc(length) + STANDBY, "ptt=0 squ=1 id=0 pm=0 ptts=0 sct=1 sqi=7/0 mss=1 audio=0")
    s.note("in RX alone, first and last")
    for length in range(16):
        read(s, "rx", ddc(length), "sqi=- mss=- audio=0")
        read(s, "rx", ddc(length) + SQI + MAIN, "sqi=7/0 mss=0 audio=0")
        read(s, "rx", STANDBY + SQI + ddc(length), "sqi=7/0 mss=1 audio=0")


def in_rx(s):
    s.session("02: type 4 in RX: zeros behind, audio behind")
    read(s, "rx", ddc(2, b"\x00") + SQI + bytes(20), "sqi=7/0 mss=- audio=0")
    read(s, "rx", SQI + ddc(3), "sqi=7/0 mss=- audio=80", kind=8, payload=sound(80))
    s.note("a second one, a value past the words, X 0, a byte behind the ending zero byte")
    for items in (ddc(0) + ddc(0), ddc(0) + SQI + ddc(3), ddc(3) + ddc(0) + STANDBY):
        read(s, "rx", items, REFUSED)
    read(s, "rx", b"\x42\x11", REFUSED)
    read(s, "rx", SQI + b"\x4A" + bytes(3), REFUSED, kind=8, payload=sound(80))
    read(s, "rx", b"\x40\x11", REFUSED)
    read(s, "rx", ddc(3), REFUSED, field=0x1008)
    read(s, "rx", ddc(1) + b"\x00" + SQI, REFUSED)
    s.note("the other types keep their rules")
    lengths = (ddc(2) + b"\x12\x38\x00", ddc(1) + b"\x52\x80\x00", ddc(1) + b"\x50")
    for items in (ddc(0) + CLIMAX, *lengths, ddc(0) + b"\x11\x80", SQI + ddc(5) + SQI, ddc(1) + b"\x31\x00"):
        read(s, "rx", items, REFUSED)


def alike(s):
    """The same calls without the item and with it."""
    answers = []
    for item in (b"", ddc(4)):
        s.session(f"02: packets answer alike without and with a type 4 item: {console.hexed(item)}")
        before = len(s.answers)
        s.open("1")
        s.packet(1, "reply=1 side=standby", ptt=NORMAL, mss=1, ddc=item)
        s.packet(1, "reply=1 side=standby audio=1011", ptt=NORMAL, cld=6, audio=80, ddc=item)
        s.told(1, ptt=NORMAL, id=1, side=1)
        answers.append(s.answers[before:])
    assert answers[0] == answers[1]


def on_the_bench(s):
    s.session("02: reply-now ignores type 4: it appears, changes value, length and place, vanishes")
    s.open("27")
    s.note("the first packet, off, id 0, with only a type 4 item: nothing differs")
    s.packet(2, "ok missing=0 reply=0", id=0, ddc=ddc(0))
    s.packet(2, "reply=1", ptt=NORMAL)
    s.packet(2, "reply=0", ptt=NORMAL, ddc=ddc(3))
    s.packet(2, "reply=0", ptt=NORMAL, ddc=ddc(3, b"\xFF"))
    s.packet(2, "reply=0", ptt=NORMAL, ddc=ddc(15))
    s.packet(2, "reply=0", ptt=NORMAL)
    s.packet(2, "reply=1", ptt=PRIORITY, ddc=ddc(1))
    s.packet(2, "reply=1", ptt=PRIORITY, cld=6, ddc=ddc(1))
    s.packet(2, "reply=0", ptt=PRIORITY, cld=6, ddc=ddc(1), at=2)
    s.packet(2, "reply=1", ptt=PRIORITY, cld=7, ddc=ddc(1), at=2)
    s.packet(7, "reply=1", ptt=TEST, ddc=ddc(8))

    s.session("02: a main/standby item behind a type 4 item takes effect; a packet with type 4 alone carries none")
    s.open("2")
    s.packet(2, "reply=1 side=standby", mss=1, ddc=ddc(2))
    s.say("side main", "ok")
    s.packet(2, "reply=0 side=main", mss=1, ddc=ddc(0))
    s.packet(2, "reply=1 side=main", ddc=ddc(2, STANDBY))
    s.packet(2, "reply=1 side=standby", mss=1, ddc=ddc(4), at=2)
    s.packet(2, "reply=1 side=main", mss=0, ddc=ddc(4))
    s.note("a second one and a value past the words are still answered with cause 2012, and the seat stays as it was")
    s.packet(2, REFUSED, ptt=NORMAL, mss=1, ddc=ddc(0) + ddc(0))
    s.packet(2, REFUSED, ptt=NORMAL, mss=1, ddc=b"\x44", at=2, audio=80)
    s.told(2, ptt=OFF, side=0)
    s.packet(2, "ok missing=0 reply=0 side=main", mss=0)

    s.session("02: type 4 on a single radio, which takes no main/standby item", SINGLE)
    s.open("2")
    s.packet(2, "ok missing=0 reply=1 side=main", ptt=NORMAL, ddc=ddc(2, STANDBY))
    s.packet(2, "refused 23", ptt=NORMAL, mss=1, ddc=ddc(2))


def ddc_items(s):
    for part in (each_length, in_rx, alike, on_the_bench):
        part(s)


def ddc_at_length(s):
    """At length: each length with three values in every place, and each that the words cut. Run by driven.py."""
    s.session("type 4 items in both directions")
    for direction, other, shown in (("tx", CLIMAX, "cld=6"), ("rx", SQI, "sqi=7/0")):
        for item in (ddc(length, content) for length in range(16) for content in (LIKE_ITEMS, b"\x00", b"\xFF")):
            read(s, direction, item, "mss=- audio=0")
            for items in (item + other + STANDBY, other + item + STANDBY, STANDBY + item + other, other + STANDBY + item):
                read(s, direction, items, f"{shown} mss=1 audio=0")
            read(s, direction, item + other + item, REFUSED)
        for length in range(1, 16):
            for before in (b"", other, other + STANDBY):
                words = words_of(FIELDS[direction], before + ddc(length))
                if len(words) - 4 > 2 + len(before):
                    s.say(f"read {direction} {console.hexed(built(words=words[:-4]))}", REFUSED)
