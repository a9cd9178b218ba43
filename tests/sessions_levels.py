"""Levels in tenths of a dBm, as 02's third request has them: where the quality steps fall. See sessions.py."""

from model import NORMAL, RSSI
from talk import SINGLE, without_sequence

# the level at which each quality begins; 02: "0 below -1000, 15 above -700, between them the floor of (level + 1000)/20"
STEPS = (
    (-980, 1), (-960, 2), (-940, 3), (-920, 4), (-900, 5), (-880, 6), (-860, 7), (-840, 8),
    (-820, 9), (-800, 10), (-780, 11), (-760, 12), (-740, 13), (-720, 14), (-700, 15),
)
# -680 is where a quality of 16 would begin; -85 is -8.5 dBm now
ENDS = ((-32768, 0), (-1001, 0), (-1000, 0), (-999, 0), (-699, 15), (-681, 15), (-680, 15), (-85, 15), (0, 15), (32767, 15))


def asks(s, level, quality):
    s.say(f"quality {level}", f"ok quality={quality}")


def steps(s):
    s.session("02: where the quality steps fall: each step's last level and the first of the next")
    for level, quality in STEPS:
        asks(s, level - 1, quality - 1)
        asks(s, level, quality)
    s.note("both ends, and those of 16 bits")
    for level, quality in ENDS:
        asks(s, level, quality)


def told(s):
    s.session("02: a report tells what quality answers for the level last received", SINGLE)
    s.open("1")
    for level, quality in ((-961, 1), (-960, 2), (-841, 7), (-721, 13), (-720, 14)):
        s.say(f"received 1 {level}", "ok")
        asks(s, level, quality)
        s.told(1, squ=1, sqi=(quality, RSSI))


def unmoved(s):
    s.session("02: quality is asked and the bench stays as it was: the next report differs in its sequence number alone")
    s.open("1")
    s.packet(1, ptt=NORMAL)
    for signals, size in ((0, 20), (2, 24)):
        s.say(f"received {signals} -850", "ok")
        before = s.say("report 1 0 - 24", f"ok len={size}")
        asks(s, -701, 14)
        asks(s, 32767, 15)
        after = s.say("report 1 0 - 24", f"ok len={size}")
        assert without_sequence(after) == without_sequence(before) and after != before, (before, after)


def levels(s):
    for part in (steps, told, unmoved):
        part(s)
