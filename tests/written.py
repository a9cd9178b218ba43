#!/usr/bin/env python3
"""Makes the records on which the writers are run, and the line expected for each.

  tests/written.py [DIR]     writes DIR/stdin and DIR/stdout
  tests/written.py --list    prints each record's line number, what it is there for, its bytes and its line

stdin is a run of records of 32 bytes, whose layout crates/write_each/src/record.rt gives. stdout has one line a record:
`ok N` or `refused N cause C`, and all bytes of the lent buffer in hex. The lines are worked out from 01 by
tests/model.py, which shares no code with the library. What is plain to see, whether a message is written, with what
length, or refused with 26 or 27, is asserted here as well.
"""

import itertools
import pathlib
from dataclasses import dataclass

import model
import usage

ROOT = pathlib.Path(__file__).resolve().parent.parent
CRATE = ROOT / "crates" / "write_each"
INPUT, EXPECTED = "stdin", "stdout"
EXT = 0x0167

# A lent buffer is full of these before, and never longer than this.
FILL = 0xEE
MOST = 512


@dataclass(frozen=True)
class Write:
    group: str
    direction: str
    message: model.Message
    audio: int
    room: int
    ext: int
    # bytes of the record, by place, that say the same in another way or are not looked at
    other: dict

    def record(self):
        f = self.message.field
        out = bytes([self.direction == model.RX]) + two(self.ext)
        out += two(self.message.sequence) + four(self.message.timestamp) + four(self.message.ssrc)
        out += bytes([f.ptt, f.squ, f.id, f.pm, f.ptts, f.sct])
        out += bytes([0, 0, 0] if f.sqi is None else [1, *f.sqi])
        out += bytes([0, 0] if f.climax is None else [1, f.climax])
        out += bytes([0 if f.side is None else 1 + f.side])
        out += two(self.audio) + two(self.room) + bytes(3)
        return bytes(self.other.get(place, byte) for place, byte in enumerate(out))

    def answer(self):
        """The packet, or a refusal, as 01 has it."""
        return model.write(self.direction, self.ext, self.message, sound(min(self.audio, MOST)), min(self.room, MOST))

    def line(self):
        answer, room = self.answer(), min(self.room, MOST)
        if isinstance(answer, model.Refused):
            return f"refused {answer.number} cause {answer.cause} {shown(b'', room)}"
        return f"ok {len(answer)} {shown(answer, room)}"


def two(number):
    return number.to_bytes(2, "big")


def four(number):
    return number.to_bytes(4, "big")


def sound(length):
    return bytes((7 * i + 1) % 256 for i in range(length))


def shown(packet, room):
    """The lent buffer with the packet at its front."""
    return (packet + bytes([FILL]) * (room - len(packet))).hex().upper() or "-"


writes = []
groups = []


def title(text):
    groups.append(text)


def add(direction, field, words, expected, seq=1, ts=0, ssrc=7, audio=0, room=None, ext=EXT, other={}):
    """expected: the start of the line, as 01 gives it at sight; words: how many the items take, in the same way."""
    size = 16 + 4 * words + audio
    room = size if room is None else room
    write = Write(groups[-1], direction, model.Message(seq, ts, ssrc, field), audio, room, ext, other)
    expected = f"ok {size} " if expected is None else expected
    assert write.line().startswith(expected), (write, expected, write.line())
    assert len(write.record()) == 32
    writes.append(write)


def tx(expected=None, ptt=1, id=2, pm=0, ptts=0, cld=None, mss=None, **rest):
    field = model.Field(ptt=ptt, id=id, pm=pm, ptts=ptts, climax=cld, side=mss)
    add(model.TX, field, 1 if cld is None or mss is None else 2, expected, **rest)


def rx(expected=None, ptt=0, squ=1, id=0, pm=0, ptts=0, sct=0, sqi=None, mss=None, **rest):
    field = model.Field(ptt=ptt, squ=squ, id=id, pm=pm, ptts=ptts, sct=sct, sqi=sqi, side=mss)
    add(model.RX, field, 1 if sqi is None or mss is None else 2, expected, **rest)


title("01's fields")
tx("ok 20 907B0001000000000000000701670001" "20800000")
tx("ok 20 907B0001000000000000000701670001" "8F515180", ptt=4, id=61, ptts=1, mss=1)
tx("ok 24 907B0001000000000000000701670002" "2081218651000000", ptt=1, id=2, cld=6, mss=0)
rx("ok 20 907B0001000000000000000701670001" "10091138", squ=1, sct=1, sqi=(7, 0))

title("TX: items present or absent, every audio length")
for cld, mss, audio in itertools.product((None, 6), (None, 1), (0, 80, 160, 240)):
    tx(cld=cld, mss=mss, audio=audio)
title("RX: items present or absent, every audio length")
for sqi, mss, audio in itertools.product((None, (9, 0)), (None, 1), (0, 80, 160, 240)):
    rx(sqi=sqi, mss=mss, audio=audio)

title("TX: every PTT type, ids, PM and PTTS")
for ptt in range(6):
    tx(ptt=ptt)
for ptt_id in (0, 1, 3, 8, 31, 32, 62, 63):
    tx(id=ptt_id)
for pm, ptts in itertools.product((0, 1), (0, 1)):
    tx(ptt=2, id=4, pm=pm, ptts=ptts)
tx(ptt=0, id=0)
tx(ptt=5, id=63, pm=1, ptts=1, cld=127, mss=1)
title("RX: every PTT type, ids, SQU, PM, PTTS, SCT")
for ptt in range(6):
    rx(ptt=ptt, id=1)
for ptt_id in (1, 8, 32, 63):
    rx(id=ptt_id)
for squ, pm, ptts, sct in itertools.product((0, 1), (0, 1), (0, 1), (0, 1)):
    rx(ptt=3, id=5, squ=squ, pm=pm, ptts=ptts, sct=sct)
rx(ptt=0, id=0, squ=0)
rx(ptt=5, squ=1, id=63, pm=1, ptts=1, sct=1, sqi=(31, 3), mss=1)

title("main beside the other item, every audio length")
for audio in (0, 80, 160, 240):
    tx(mss=0, audio=audio)
    tx(cld=127, mss=0, audio=audio)
    rx(mss=0, audio=audio)
    rx(sqi=(31, 2), mss=0, audio=audio)

title("values of the items")
for cld in (0, 1, 63, 64, 126, 127):
    tx(cld=cld)
for mss in (0, 1):
    tx(mss=mss)
    rx(mss=mss)
for quality in (0, 1, 8, 15):
    rx(sqi=(quality, 0))
for quality, method in ((0, 1), (15, 1), (16, 1), (31, 1), (0, 2), (16, 2), (31, 2), (0, 3), (16, 3), (31, 3)):
    rx(sqi=(quality, method))
title("an SQI item with SQU 0 is written")
rx(squ=0, sqi=(15, 0), mss=0)

title("the RTP head")
for seq, ts, ssrc in (
    (0, 0, 0), (255, 256, 65536), (258, 16909060, 84281096), (65535, 4294967295, 4294967295), (32768, 2147483648, 2147483648),
):
    tx(seq=seq, ts=ts, ssrc=ssrc)
    rx(seq=seq, ts=ts, ssrc=ssrc)
title("every extension type is written")
for ext in (0, 1, 255, 256, 0x0166, 0x6701, 0xBEDE, 65535):
    tx(ext=ext)
    rx(ext=ext, sqi=(7, 0), mss=1)

REFUSED = "refused 27 cause 0"
title("27, TX: PTT type, id, delay, audio length")
for ptt in (6, 7, 8, 9, 13, 16, 32, 64, 128, 129, 254, 255):
    tx(REFUSED, ptt=ptt)
for ptt_id in (64, 65, 66, 127, 128, 130, 192, 255):
    tx(REFUSED, id=ptt_id)
for cld in (128, 129, 134, 192, 254, 255):
    tx(REFUSED, cld=cld)
for audio in (1, 40, 79, 81, 120, 159, 161, 239, 241):
    tx(REFUSED, audio=audio, room=300)
# 80, 160 and 240 in the low byte alone; the longest that the program lends
for audio in (256, 320, 336, 416, 496, 512, 65535):
    tx(REFUSED, audio=audio, room=512)
title("27, RX: PTT type, id, method, quality, audio length")
for ptt in (6, 7, 8, 10, 64, 128, 255):
    rx(REFUSED, ptt=ptt)
for ptt_id in (64, 65, 127, 128, 192, 255):
    rx(REFUSED, id=ptt_id)
for quality, method in ((0, 4), (0, 5), (0, 6), (0, 7), (0, 8), (15, 16), (0, 128), (0, 255), (31, 4), (255, 255)):
    rx(REFUSED, sqi=(quality, method))
for quality in (16, 17, 31, 32, 64, 128, 255):
    rx(REFUSED, sqi=(quality, 0))
for method, quality in itertools.product((1, 2, 3), (32, 33, 64, 128, 255)):
    rx(REFUSED, sqi=(quality, method))
rx(REFUSED, squ=0, sqi=(16, 0))
for audio in (1, 79, 81, 159, 161, 239, 241):
    rx(REFUSED, audio=audio, room=300)
for audio in (336, 416, 496, 512):
    rx(REFUSED, audio=audio, room=512)
title("27 stands whatever else is there")
tx(REFUSED, ptt=6, cld=6, mss=1, audio=80)
tx(REFUSED, id=64, cld=6, mss=1, audio=160)
tx(REFUSED, cld=128, mss=1, audio=240)
tx(REFUSED, cld=6, mss=1, audio=81)
rx(REFUSED, ptt=6, sqi=(15, 0), mss=1, audio=80)
rx(REFUSED, sqi=(16, 0), mss=1, audio=240)
rx(REFUSED, sqi=(32, 3), mss=0, audio=160)

SHORT = "refused 26 cause 0"
title("26: room one short, and none")
for cld, mss, audio, size in (
    (None, None, 0, 20), (6, None, 0, 20), (None, 0, 0, 20), (6, 0, 0, 24),
    (None, None, 80, 100), (6, 1, 160, 184), (6, 1, 240, 264),
):
    tx(SHORT, cld=cld, mss=mss, audio=audio, room=size - 1)
    tx(SHORT, cld=cld, mss=mss, audio=audio, room=0)
for sqi, mss, audio, size in (
    (None, None, 0, 20), ((15, 0), None, 0, 20), (None, 1, 0, 20), ((15, 0), 1, 0, 24),
    (None, None, 80, 100), ((31, 1), 1, 160, 184), ((15, 0), 1, 240, 264),
):
    rx(SHORT, sqi=sqi, mss=mss, audio=audio, room=size - 1)
    rx(SHORT, sqi=sqi, mss=mss, audio=audio, room=0)
tx(SHORT, room=16)
tx(SHORT, cld=6, mss=1, room=20)
rx(SHORT, sqi=(7, 0), mss=1, room=20)
tx(SHORT, audio=80, room=20)

title("27 before 26")
for room in (0, 19):
    tx(REFUSED, ptt=6, room=room)
    tx(REFUSED, id=64, room=room)
    tx(REFUSED, cld=128, room=room)
    tx(REFUSED, audio=81, room=room)
    rx(REFUSED, ptt=7, room=room)
    rx(REFUSED, sqi=(16, 0), room=room)
    rx(REFUSED, sqi=(0, 4), room=room)
    rx(REFUSED, audio=79, room=room)

title("bytes past the length stay")
for room in (21, 24, 32):
    tx(room=room)
    tx(cld=6, room=room)
    rx(sqi=(7, 0), room=room)
for room in (25, 40, 300):
    tx(cld=6, mss=1, room=room)
    rx(sqi=(7, 0), mss=1, room=room)
for audio in (80, 160, 240):
    tx(cld=6, mss=1, audio=audio, room=24 + audio + 7)
    rx(sqi=(7, 0), mss=1, audio=audio, room=24 + audio + 1)
    rx(audio=audio, room=300)
for room in (511, 512, 513, 65535):
    tx(cld=6, mss=1, audio=240, room=room)
    rx(room=room)

title("the record: bits and items said by any number")
for number in (2, 128, 255):
    tx(pm=1, ptts=1, other={16: number, 17: number})
    rx(squ=1, pm=1, ptts=1, sct=1, other={14: number, 16: number, 17: number, 18: number})
    tx(cld=6, mss=1, other={22: number, 24: number})
    rx(sqi=(7, 0), mss=1, other={19: number, 24: number})
title("the record: what is not looked at")
tx(other={14: 1, 18: 1, 19: 1, 20: 7})
tx(other={19: 1, 20: 255, 21: 255})
rx(other={22: 1, 23: 255})
tx(other={20: 255, 21: 255, 23: 255, 29: 255, 30: 255, 31: 255})
rx(other={20: 255, 21: 255, 23: 255, 29: 255, 30: 255, 31: 255})


def listed():
    for number, write in enumerate(writes, 1):
        line = write.line()
        print(f"{number} | {write.group} | {write.record().hex()} | {line[:80]}{'..' if len(line) > 80 else ''}")


def main():
    given = usage.arguments(__doc__, "--list")
    if given == ["--list"]:
        return listed()
    folder = pathlib.Path(given[0]) if given else CRATE
    folder.mkdir(parents=True, exist_ok=True)
    (folder / INPUT).write_bytes(b"".join(write.record() for write in writes))
    (folder / EXPECTED).write_text("".join(write.line() + "\n" for write in writes))
    print(f"{len(writes)} writes, written to {folder}")


if __name__ == "__main__":
    main()
