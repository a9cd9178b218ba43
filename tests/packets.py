#!/usr/bin/env python3
"""Makes the packets on which the TX reader is run, and the line expected for each.

  tests/packets.py [DIR]     writes DIR/stdin and DIR/stdout
  tests/packets.py --list    prints each packet's line number, what it is there for, its bytes and its line

stdin is a run of records: a two-byte big-endian length, then that many bytes. stdout has one
line a record, as 01's program prints it for extension type hex 0167. The lines are worked out
from 01 by tests/model.py, which shares no code with the library. Where a packet is built to
break known cases, the number that 01's order gives is asserted here as well. Those of 02's
first request are in tests/packets_ddc.py.
"""

import itertools
import pathlib

import model
import usage
from handmade import CLIMAX, EXT, MAIN, SQI, STANDBY, built, sound, words_of
from packets_ddc import type_4
from vectors import add, good, vectors

ROOT = pathlib.Path(__file__).resolve().parent.parent
CRATE = ROOT / "crates" / "decode_each"
INPUT, EXPECTED = "stdin", "stdout"

# 01's printed packets and fields
good("the program's example", bytes.fromhex("907B000100000000000000070167000120800000"))
for field in ("20800000", "8F515180", "2081218651000000"):
    good("01's TX fields", built(words=bytes.fromhex(field)))
add("01's RX field is no TX field", built(words=bytes.fromhex("10091138")), 10)

# values of the RTP head
for sequence in (0, 1, 255, 256, 32767, 32768, 65535):
    good("sequence", built(sequence=sequence))
for number in (0, 1, 0x01020304, 0x7FFFFFFF, 0x80000000, 0xFFFFFFFF):
    good("timestamp", built(timestamp=number))
    good("SSRC", built(ssrc=number))

# 1: under 12 bytes, whatever they are
add("nothing at all", b"", 1)
for length in range(1, 12):
    add("zero bytes only", bytes(length), 1)
add("eleven bytes FF", b"\xFF" * 11, 1)

# 2 to 5: each value of the two first bytes that is refused, and the two payload types that are not
for version in (0, 1, 3):
    add("version", built(version=version), 2)
add("padding", built(padding=1), 3)
add("marker", built(marker=1), 3)
add("padding and marker", built(padding=1, marker=1), 3)
add("marker on audio", built(marker=1, kind=8, payload=sound(80)), 3)
add("extension bit clear", built(extension=0), 4)
add("extension bit clear on a bare RTP packet", bytes.fromhex("800800010000000000000007") + sound(80), 4)
for kind in (0, 1, 7, 9, 18, 59, 72, 96, 122, 124, 126, 127):
    add("payload type", built(kind=kind), 5)
    add("payload type with audio behind it", built(kind=kind, payload=sound(80)), 5)
for byte0, byte1 in itertools.product((0x00, 0x40, 0x80, 0x90, 0xA0, 0xB0, 0xC0, 0xF0), (0x08, 0x7B, 0x88, 0xFB, 0x00, 0xFF)):
    add("first two bytes of the packet", bytes([byte0, byte1]) + built()[2:])

# 6: the head of the extension is cut; CC words stand before it
for cc in range(16):
    good("CC", built(cc=cc))
for cc in (0, 1, 2, 15):
    for short in (1, 2, 3, 4):
        add("head of the extension cut", built(cc=cc, cut=12 + 4 * cc + 4 - short), 6)
for cc in (1, 2, 14, 15):
    add("CC says more words than there are", (bytes([0x90 + cc]) + built(payload=bytes(60))[1:])[: 16 + 4 * cc - 1], 6)

# 7 and 8: type and word count
for ext in (0, 0x0166, 0x0168, 0x0067, 0x6701, 0x8167, 0xBEDE, 0xFFFF):
    add("extension type", built(ext=ext), 7)
for count in (0, 16, 17, 255, 256, 257, 0x0100, 0x0F00, 0x8001, 65535):
    add("word count", built(count=count), 8)
    add("word count with many words behind it", built(count=count, words=words_of(0x2080, count=15)), 8)
for count in range(1, 16):
    good("W words, X 0", built(words=words_of(0x2080, count=count)))
    good("W words, one item", built(words=words_of(0x2081, STANDBY, count=count)))

# 9: fewer words than W says
for count in (1, 2, 3, 15):
    for missing in (1, 2, 3, 4, 4 * count):
        add("words cut", built(words=words_of(0x2080, count=count), cut=16 + 4 * count - missing), 9)
for count in range(2, 16):
    add("W says one word more", built(count=count, words=words_of(0x2080, count=count - 1)), 9)

# the first two bytes of the words: every bit alone, every bit missing from all that may be set
for bit in range(16):
    add("one bit of the field", built(words=words_of(1 << bit)))
    add("one bit of the field, with an item", built(words=words_of(1 << bit, STANDBY)))
    add("one bit turned in Emergency, id 63, PM, PTTS, X", built(words=words_of(0x8FF1 ^ (1 << bit), CLIMAX)))
for ptt in range(8):
    add("PTT type", built(words=words_of(ptt << 13)))
    add("PTT type, id 5, PM", built(words=words_of(ptt << 13 | 5 << 6 | 0x20)))
    add("PTT type with SQU", built(words=words_of(ptt << 13 | 0x1000)), 10)
for ptt_id in (0, 1, 2, 3, 7, 8, 9, 31, 32, 61, 62, 63):
    good("ptt-id", built(words=words_of(1 << 13 | ptt_id << 6)))
for pm, ptts in itertools.product((0, 1), (0, 1)):
    good("PM and PTTS", built(words=words_of(0x4100 | pm << 5 | ptts << 4)))
for reserved in range(1, 8):
    add("reserved bits", built(words=words_of(0x2080 | reserved << 1)), 10)

# items: every choice of them in every order
for size in range(1, 4):
    for chosen in itertools.permutations((CLIMAX, STANDBY, SQI), size):
        items = b"".join(chosen)
        refused = 11 if SQI in chosen else None
        add("items in every order", built(words=words_of(0x2081, items)), refused)
        add("items in every order, a zero word behind", built(words=words_of(0x2081, items, count=(len(items) + 5) // 4 + 1)), refused)
        add("items in every order, X 0", built(words=words_of(0x2080, items)), 11)
for chosen in ((CLIMAX, CLIMAX), (STANDBY, STANDBY), (MAIN, STANDBY), (CLIMAX, STANDBY, CLIMAX), (STANDBY, CLIMAX, MAIN), (CLIMAX, CLIMAX, STANDBY)):
    add("a type twice", built(words=words_of(0x2081, b"".join(chosen))), 11)
for item_type in range(16):
    refused = None if item_type in (2, 4, 5) else 11
    add("each type alone, value 80", built(words=words_of(0x2081, bytes([item_type * 16 + 1, 0x80]))), refused)
    add("each type behind CLIMAX", built(words=words_of(0x2081, CLIMAX + bytes([item_type * 16 + 1, 0x80]))), None if item_type in (4, 5) else 11)
for length in range(16):
    refused = None if length == 1 else 11
    add("length of a CLIMAX item", built(words=words_of(0x2081, bytes([0x20 + length, 0x86]) + bytes(16))), refused)
    add("length of a main/standby item", built(words=words_of(0x2081, bytes([0x50 + length, 0x80]) + bytes(16))), refused)
    add("a byte 00 to 0F where an item would begin", built(words=words_of(0x2081, bytes([length, 0]))), 11)
    add("a byte 00 to 0F behind an item", built(words=words_of(0x2081, STANDBY + bytes([length, 0]))), None if length == 0 else 11)
good("type 4 of length 0", built(words=words_of(0x2081, STANDBY + b"\x40\x00")))
for byte in (0x00, 0x01, 0x06, 0x7F, 0x80, 0x81, 0x86, 0xFE, 0xFF):
    add("value of CLIMAX", built(words=words_of(0x2081, bytes([0x21, byte]))))
for byte in (0x00, 0x01, 0x02, 0x10, 0x40, 0x7F, 0x80, 0x81, 0xC0, 0xFF):
    add("value of main/standby", built(words=words_of(0x2081, bytes([0x51, byte]))))

# X and the bytes behind the items
add("X 1 with no item, one word", built(words=words_of(0x2081)), 11)
add("X 1 with no item, all words zero", built(words=words_of(0x2081, count=15)), 11)
add("X 1 alone in a field of zeros", built(words=words_of(0x0001)), 11)
add("zero byte, then an item", built(words=words_of(0x2081, b"\x00\x51\x80")), 11)
add("zero bytes, then an item in its place", built(words=words_of(0x2081, b"\x00\x00" + STANDBY)), 11)
add("item, zero bytes, item", built(words=words_of(0x2081, CLIMAX + b"\x00\x00" + STANDBY)), 11)
add("item, zero byte, 01", built(words=words_of(0x2081, CLIMAX + b"\x00\x01")), 11)
for place in range(5, 16):
    words = bytearray(words_of(0x2081, STANDBY, count=4))
    words[place] = 1
    add("one byte 01 behind the ending zero byte", built(words=bytes(words)), 11)
for place in range(2, 8):
    words = bytearray(words_of(0x2080, count=2))
    words[place] = 0x80
    add("X 0 with one byte 80", built(words=bytes(words)), 11)
add("X 0, last of 60 bytes not zero", built(words=words_of(0x2080, count=15)[:-1] + b"\x01"), 11)
add("X 1, last of 60 bytes not zero", built(words=words_of(0x2081, CLIMAX + STANDBY, count=15)[:-1] + b"\x01"), 11)
good("items to the last byte", built(words=words_of(0x2081, CLIMAX)))
good("items to the last byte, then audio", built(words=words_of(0x2081, MAIN), kind=8, payload=sound(80)))
good("X 0, then audio that is not zero", built(words=words_of(0x2080), kind=8, payload=b"\xD5" * 80))
add("items that fill the words, one with a wrong type", built(words=words_of(0x2081, CLIMAX + STANDBY + b"\x31\x00")), 11)

# 12: payload
for length in (80, 160, 240):
    good("audio", built(kind=8, payload=sound(length)))
    good("audio with items, CC 3", built(cc=3, kind=8, words=words_of(0x8F51, CLIMAX + STANDBY), payload=sound(length)))
    good("audio with PTT off", built(kind=8, words=words_of(0), payload=sound(length)))
for length in (0, 1, 40, 79, 81, 120, 159, 161, 200, 239, 241, 320):
    add("wrong length of audio", built(kind=8, payload=sound(length)), 12)
for length in (1, 2, 4, 80, 160, 240):
    add("R2S with a payload", built(payload=sound(length)), 12)
    add("R2S with a payload of zeros", built(payload=bytes(length)), 12)

# every cut of a packet with CSRC, items and audio, and of an R2S packet
long_one = built(cc=2, kind=8, sequence=513, words=words_of(0x2091, STANDBY + CLIMAX, count=3), payload=sound(80))
for length in range(len(long_one)):
    expected = 1 if length < 12 else 6 if length < 24 else 9 if length < 36 else 12
    add("every cut of an audio packet", long_one[:length], expected)
good("the audio packet itself", long_one)
short_one = built(cc=1, words=words_of(0xA1D1, CLIMAX + MAIN))
for length in range(len(short_one)):
    expected = 1 if length < 12 else 6 if length < 20 else 9
    add("every cut of an R2S packet", short_one[:length], expected)
good("the R2S packet itself", short_one)

# two cases and more in one packet: the lower number wins
FAULTS = {
    2: dict(version=1),
    3: dict(padding=1),
    4: dict(extension=0),
    5: dict(kind=9),
    7: dict(ext=0x0168),
    8: dict(count=0),
    10: dict(words=words_of(0xE081, STANDBY)),
    11: dict(words=words_of(0x2081, SQI)),
    12: dict(payload=sound(81)),
}
for low, high in itertools.combinations(FAULTS, 2):
    both = {**FAULTS[low], **FAULTS[high]}
    if (low, high) == (10, 11):
        both = dict(words=words_of(0xE081, SQI))
    add("two cases in one packet", built(**both), low)
for number in (2, 3, 4, 5, 7, 8):
    add("a case in eleven bytes", built(**FAULTS[number], cut=11), 1)
for number in (2, 3, 4, 5):
    add("a case, and the head of the extension cut", built(**FAULTS[number], cut=14), number)
    add("a case, and the words cut", built(**FAULTS[number], cut=18), number)
add("other type, head cut behind it", built(ext=0x0168, cut=14), 6)
add("other type, head cut in the count", built(ext=0x0168, cut=15), 6)
add("count 256 or more, head cut in the count", built(count=0x0100, cut=15), 6)
add("other type, words cut", built(ext=0x0168, cut=18), 7)
add("other type, W 0, no words", built(ext=0x0168, count=0, cut=16), 7)
add("other type, W 16, words cut", built(ext=0x0168, count=16, cut=18), 7)
add("W 0 and no words", built(count=0, cut=16), 8)
add("W 16 and words cut", built(count=16, cut=18), 8)
add("W 65535 and words cut", built(count=65535, cut=20), 8)
add("PTT 7 in words that are cut", built(words=words_of(0xE080, count=2), cut=22), 9)
add("a bad item in words that are cut", built(words=words_of(0x2081, SQI, count=2), cut=22), 9)
add("audio type, words cut", built(kind=8, words=words_of(0x2080, count=2), cut=22), 9)
add("PTT 6, a bad item and a bad payload", built(kind=8, words=words_of(0xC081, SQI), payload=sound(3)), 10)
add("PTT 7 and no audio", built(kind=8, words=words_of(0xE080)), 10)
add("SQU and X 1 with no item", built(words=words_of(0x3081)), 10)
add("a reserved bit and X 0 with an item", built(words=words_of(0x2082, STANDBY)), 10)
add("X 1 with no item and no audio", built(kind=8, words=words_of(0x2081)), 11)
add("a type twice and R2S with a payload", built(words=words_of(0x2081, MAIN + MAIN), payload=b"\x00"), 11)
add("byte 1 = FB: marker and type 123", built(marker=1, kind=123), 3)
add("byte 1 = 89: marker and a wrong type", built(marker=1, kind=9), 3)
add("padding, extension bit clear, wrong type", built(padding=1, extension=0, kind=0), 3)
add("extension bit clear, wrong type, 12 bytes", built(extension=0, kind=0, cut=12), 4)
add("wrong type, 12 bytes", built(kind=0, cut=12), 5)
add("version 3 and everything else set", b"\xFF" * 40, 2)
add("version 2 and everything else set", b"\xBF" + b"\xFF" * 39, 3)

# long inputs: 376 bytes is the longest packet; longer ones are 12 or an earlier number
longest = built(cc=15, kind=8, words=words_of(0x2081, CLIMAX + STANDBY, count=15), payload=sound(240))
assert len(longest) == 376
good("376 bytes, the longest packet", longest)
for length in (377, 400, 5000):
    more = sound(length)
    add("longest packet and more", longest + more[376:], 12)
    add("long, PTT 7", built(kind=8, words=words_of(0xE080)) + more[20:], 10)
for length in (377, 400):
    more = sound(length)
    add("R2S and more", built() + more[20:], 12)
    add("long, a bad item", built(kind=8, words=words_of(0x2081, SQI)) + more[20:], 11)
    add("long, W 0", built(count=0) + more[20:], 8)
    add("long, wrong payload type", built(kind=9) + more[20:], 5)
    add("long, other extension type", built(ext=0x0168) + more[20:], 7)
add("5000 zero bytes", bytes(5000), 2)
good("a short packet behind a long one", built())

type_4()


def listed(lines):
    for number, ((group, packet), line) in enumerate(zip(vectors, lines), 1):
        print(f"{number} | {group} | {packet[:40].hex()}{'..' if len(packet) > 40 else ''} | {line}")


def main():
    lines = [model.line(model.read(model.TX, EXT, packet)) for _, packet in vectors]
    given = usage.arguments(__doc__, "--list")
    if given == ["--list"]:
        return listed(lines)
    folder = pathlib.Path(given[0]) if given else CRATE
    folder.mkdir(parents=True, exist_ok=True)
    records = b"".join(len(packet).to_bytes(2, "big") + packet for _, packet in vectors)
    (folder / INPUT).write_bytes(records)
    (folder / EXPECTED).write_text("".join(line + "\n" for line in lines))
    print(f"{len(vectors)} packets, {len(records)} bytes, written to {folder}")


if __name__ == "__main__":
    main()
