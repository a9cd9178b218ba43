"""TX packets with type 4 items (DDC), as 02's first request reads them. See packets.py."""

from handmade import CLIMAX, MAIN, SQI, STANDBY, built, ddc, sound, words_of
from vectors import add, good, stepped


def stepped_over():
    # "one type 4 item of any length 0 to 15 is stepped over and its value isn't kept";
    # "X = 1 with only such an item is fine"
    for length in range(16):
        item = ddc(length)
        stepped("type 4 alone", item, b"")
        stepped("type 4 alone, a zero word behind", item + bytes(4), b"")
        for other in (CLIMAX, MAIN):
            stepped("type 4, then an item", item + other, other)
            stepped("an item, then type 4", other + item, other)
        stepped("type 4 first", item + CLIMAX + STANDBY, CLIMAX + STANDBY)
        stepped("type 4 between", CLIMAX + item + STANDBY, CLIMAX + STANDBY)
        stepped("type 4 between, falling types", STANDBY + item + CLIMAX, CLIMAX + STANDBY)
        stepped("type 4 last", CLIMAX + STANDBY + item, CLIMAX + STANDBY)
        add("type 4, then SQI", built(words=words_of(0x2081, item + SQI)), 11)
        add("type 4, then an item twice", built(words=words_of(0x2081, MAIN + item + STANDBY)), 11)
        add("type 4, X 0", built(words=words_of(0x2080, item)), 11)
    for length in range(1, 16):
        # zeros, ones, heads of type 4 and of the item behind it, whole items
        for content in (b"\x00", b"\xFF", b"\x4F", b"\x51", CLIMAX + MAIN):
            stepped("value bytes of type 4", ddc(length, content) + STANDBY, STANDBY)
    stepped("type 4, CC 15, audio", ddc(6) + STANDBY, STANDBY, cc=15, kind=8, payload=sound(240))
    stepped("376 bytes, type 4", CLIMAX + ddc(15) + STANDBY, CLIMAX + STANDBY, count=15, cc=15, kind=8, payload=sound(240))


def twice():
    # "11 no longer covers type 4, except a second one"
    for first, second in ((0, 0), (0, 3), (3, 0), (1, 1), (2, 2), (15, 15)):
        for between in (b"", CLIMAX, STANDBY, STANDBY + CLIMAX):
            add("type 4 twice", built(words=words_of(0x2081, ddc(first) + between + ddc(second))), 11)
    add("type 4 twice, an item behind", built(words=words_of(0x2081, ddc(0) + ddc(0) + STANDBY)), 11)
    add("type 4 three times", built(words=words_of(0x2081, b"\x40\x40\x40")), 11)


def past_the_words():
    # "it now also covers an item of any type whose value runs past the words"
    for length in range(1, 16):
        for before in (b"", STANDBY):
            words = words_of(0x2081, before + ddc(length))
            stepped("type 4 in the fewest words, audio behind", before + ddc(length), before, kind=8, payload=sound(80))
            # cut at each word that still has the head
            for end in range(len(words) - 4, 2 + len(before), -4):
                less, rest = words[:end], words[end:]
                add("type 4 past the words", built(words=less), 11)
                add("type 4 past the words, audio behind", built(words=less, kind=8, payload=sound(80)), 11)
                add("type 4 past the words, its bytes behind", built(words=less, payload=rest), 11)
    # to the last byte, and the same bytes with a head that says one more: by one byte only even lengths run past, as the
    # head stands behind items of two bytes
    for length in range(1, 15, 2):
        before = b"" if length % 4 == 1 else CLIMAX
        words = words_of(0x2081, before + ddc(length))
        longer = words_of(0x2081, before + bytes([0x41 + length]) + ddc(length)[1:])
        assert len(words) == 3 + len(before) + length and len(longer) == len(words)
        good("type 4 to the last byte", built(words=words))
        add("type 4 one byte past the words", built(words=longer), 11)
        add("type 4 one byte past the words, audio behind", built(words=longer, kind=8, payload=sound(160)), 11)
    for length in range(2, 16):
        add("type 4, one value byte of more", built(words=bytes([0x20, 0x81, 0x40 + length, 0])), 11)
    # behind an even length an item's head can be the last byte
    for length in (0, 4, 8, 12):
        for head in (0x21, 0x51, 0x11, 0x31, 0x50, 0x40, 0x41, 0x4F, 0x01):
            add("a head in the last byte", built(words=words_of(0x2081, ddc(length) + bytes([head]))), 11)
        add("a head in the last byte, its value behind", built(words=words_of(0x2081, ddc(length) + b"\x51"), kind=8, payload=bytes(80)), 11)
        stepped("a zero byte in the last byte", ddc(length) + b"\x00", b"")


def behind_it():
    # "a zero byte where an item would begin ends them, and all bytes after it are zero."
    for length in (0, 3, 6, 13):
        stepped("type 4, zeros to byte 60", ddc(length), b"", count=15)
        add("type 4, last of 60 bytes not zero", built(words=words_of(0x2081, ddc(length), count=15)[:-1] + b"\x01"), 11)
        for place in range(3 + length, 20):
            words = bytearray(words_of(0x2081, ddc(length), count=5))
            words[place] = 1
            add("type 4, one byte 01 behind it", built(words=bytes(words)), 11)
        add("type 4, zero byte, item", built(words=words_of(0x2081, ddc(length) + b"\x00" + STANDBY)), 11)
        add("zero byte, type 4", built(words=words_of(0x2081, b"\x00" + ddc(length))), 11)
        add("item, zero byte, type 4", built(words=words_of(0x2081, CLIMAX + b"\x00" + ddc(length))), 11)


def other_types():
    # "An item is one byte (type in the high half, length 1 in the low half) and one value byte.": all but type 4
    for item_type in range(16):
        for length in range(16):
            if item_type == 4 or (item_type, length) in ((0, 0), (2, 1), (5, 1)):
                continue
            item = bytes([16 * item_type + length]) + (b"\x80" + bytes(14))[:length]
            add("another type or length, the value whole", built(words=words_of(0x2081, item, count=5)), 11)
            if item_type in (1, 2, 5):
                add("another length behind type 4", built(words=words_of(0x2081, ddc(2) + item)), 11)


def in_order():
    # "readers 1 to 12"
    past = b"\x4F"
    add("PTT 7 and type 4 twice", built(words=words_of(0xE081, ddc(0) + ddc(0))), 10)
    add("SQU and type 4 past the words", built(words=words_of(0x3081, past)), 10)
    add("type 4 past the words and no audio", built(kind=8, words=words_of(0x2081, past)), 11)
    add("type 4 twice and R2S with a payload", built(words=words_of(0x2081, ddc(1) + ddc(1)), payload=b"\x00"), 11)
    add("type 4 and R2S with a payload", built(words=words_of(0x2081, ddc(1)), payload=b"\x00"), 12)
    add("type 4 and 81 bytes of audio", built(kind=8, words=words_of(0x2081, ddc(2)), payload=sound(81)), 12)
    whole = built(words=words_of(0x2081, CLIMAX + ddc(5) + STANDBY))
    assert len(whole) == 28
    for length in range(12, 28):
        add("every cut of a packet with type 4", whole[:length], 6 if length < 16 else 9)
    good("the packet with type 4 itself", whole)


def type_4():
    for part in (stepped_over, twice, past_the_words, behind_it, other_types, in_order):
        part()
