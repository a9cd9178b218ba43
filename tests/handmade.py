"""Packets put together byte by byte, so that they can break any rule, type 4 items (DDC), and what a tick sends taken apart."""

EXT = 0x0167

CLIMAX = bytes([0x21, 0x86])
STANDBY = bytes([0x51, 0x80])
MAIN = bytes([0x51, 0x00])
SQI = bytes([0x11, 0x38])

# what the value of a type 4 item holds if nothing else is asked: other items, zero bytes, heads of its own kind
LIKE_ITEMS = bytes.fromhex("5100218600114F405180410000")


def sound(length):
    return bytes((7 * i + 1) % 256 for i in range(length))


def words_of(field, items=b"", count=None):
    """field is the first two bytes as a number; zero bytes fill the words."""
    words = field.to_bytes(2, "big") + items
    count = (len(words) + 3) // 4 if count is None else count
    return words + bytes(4 * count - len(words))


def built(
    version=2, padding=0, extension=1, cc=0, marker=0, kind=123, sequence=1, timestamp=0, ssrc=7,
    ext=EXT, count=None, words=None, payload=b"", cut=None,
):
    words = words_of(0x2080) if words is None else words
    count = len(words) // 4 if count is None else count
    head = bytes([version * 64 + padding * 32 + extension * 16 + cc, marker * 128 + kind])
    head += sequence.to_bytes(2, "big") + timestamp.to_bytes(4, "big") + ssrc.to_bytes(4, "big")
    csrc = b"".join((0xC0FFEE00 + i).to_bytes(4, "big") for i in range(cc))
    whole = head + csrc + ext.to_bytes(2, "big") + count.to_bytes(2, "big") + words + payload
    return whole if cut is None else whole[:cut]


def ddc(length, content=LIKE_ITEMS):
    """A type 4 item; its value repeats the bytes given."""
    return bytes([0x40 + length]) + (content * 15)[:length]


def with_ddc(plain, item, at=0):
    """A plain packet with a type 4 item behind the first `at` bytes of its items. X is set; the words grow."""
    end = 16 + 4 * plain[15]
    words = bytes([plain[16], plain[17] | 1]) + plain[18 : 18 + at] + item + plain[18 + at : end]
    words += bytes(-len(words) % 4)
    return plain[:15] + bytes([len(words) // 4]) + words + plain[end:]


def records(ticked):
    """The reports in a tick's answer. Each is behind its length, two bytes in network byte order (RFC 4571; document 003, table 5)."""
    last = ticked.split()[-1]
    sent, reports = b"" if last == "-" else bytes.fromhex(last), []
    while sent:
        end = 2 + int.from_bytes(sent[:2], "big")
        assert end <= len(sent), ticked
        reports.append(sent[2:end])
        sent = sent[end:]
    return reports


def some_ddc(r, plain, items):
    """A plain packet of so many items with no, one or two of type 4 more, in any place; and whether it still means the same.
    Now and then a value is short: then it takes what stands behind it, or runs past the words."""
    packet, same = plain, True
    for count in range(r.choice([0] * 20 + [1] * 12 + [2])):
        item = ddc(r.randrange(16), r.choice([b"\x00", r.randbytes(15)]))
        if r.random() < 0.15:
            item, same = item[: r.randrange(1, len(item) + 1)], False
        packet, same = with_ddc(packet, item, 2 * r.randrange(items + 1)), same and count == 0
    return packet, same
