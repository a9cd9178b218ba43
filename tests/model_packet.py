"""Document 01's packets, with 02's first and third requests: what is read, what is written, what is turned away. Part of the model, see model.py."""

from dataclasses import dataclass, replace


# ---- What is turned away

# "Each refusal returns its number and cause (0 unless shown)."
CAUSES = {10: 2012, 11: 2012, 18: 2005}


@dataclass(frozen=True)
class Refused:
    number: int

    @property
    def cause(self):
        return CAUSES.get(self.number, 0)


def first_refusal(*cases):
    """The first case that holds, or None. A case is its number and a test, asked in turn."""
    for number, holds in cases:
        if holds():
            return Refused(number)
    return None


# ---- The packet

TX, RX = "TX", "RX"
OFF, NORMAL, COUPLING, PRIORITY, EMERGENCY, TEST = range(6)
MAIN, STANDBY = 0, 1
RSSI, AGC, CARRIER_TO_NOISE, PSD = range(4)
SQI_TYPE, CLIMAX_TYPE, DDC_TYPE, SIDE_TYPE = 1, 2, 4, 5
AUDIO, R2S = 8, 123

# "for 8 exactly 80, 160 or 240 bytes (10, 20, 30 ms)"
AUDIO_LENGTHS = (80, 160, 240)


@dataclass(frozen=True)
class Field:
    """The first two bytes and the items. An absent item is None."""

    ptt: int = OFF
    squ: int = 0
    id: int = 0
    pm: int = 0
    ptts: int = 0
    sct: int = 0
    sqi: tuple = None  # (quality, method)
    climax: int = None  # the 7-bit value, ms divided by 2
    side: int = None


@dataclass(frozen=True)
class Message:
    sequence: int
    timestamp: int
    ssrc: int
    field: Field
    audio: bytes = b""

    @property
    def kind(self):
        return AUDIO if self.audio else R2S


def number(data):
    # "numbers are big-endian."
    return int.from_bytes(data, "big")


def bits(data):
    # "Bit 0 is the most significant bit of a byte": a text of 0 and 1 in that order
    return "".join(format(byte, "08b") for byte in data)


def value(text):
    return int(text, 2)


def read(direction, ext, packet):
    """Readers: the message, or the first refusal of 1 to 12."""
    # 1: "under 12 bytes"
    if len(packet) < 12:
        return Refused(1)

    # "Byte 0: version 2, padding 0, extension 1, CSRC count CC (0 to 15).
    #  Byte 1: marker 0, payload type 8 (audio) or 123 (R2S)."
    byte0, byte1 = bits(packet[0:1]), bits(packet[1:2])
    version, padding, extension, cc = value(byte0[0:2]), byte0[2], byte0[3], value(byte0[4:8])
    marker, payload_type = byte1[0], value(byte1[1:8])
    # 2: "version not 2"
    if version != 2:
        return Refused(2)
    # 3: "padding or marker set"
    if padding == "1" or marker == "1":
        return Refused(3)
    # 4: "extension bit clear"
    if extension == "0":
        return Refused(4)
    # 5: "payload type"
    if payload_type not in (AUDIO, R2S):
        return Refused(5)

    # "Then sequence (2 bytes), timestamp (4), SSRC (4), CC words of CSRC, which are skipped."
    sequence, timestamp, ssrc = number(packet[2:4]), number(packet[4:8]), number(packet[8:12])
    behind_csrc = packet[12 + 4 * cc :]

    # "Extension type (2 bytes, equal to the number in the set-up; ..), word count W (2 bytes),
    #  1 to 15, then W words of four bytes."
    # 6: "cut before the end of the extension's 4-byte head", so inside the CSRC words too
    if len(behind_csrc) < 4:
        return Refused(6)
    # 7: "extension type"
    if number(behind_csrc[0:2]) != ext:
        return Refused(7)
    # 8: "W is 0 or above 15"
    word_count = number(behind_csrc[2:4])
    if word_count == 0 or word_count > 15:
        return Refused(8)
    # 9: "cut inside the words"
    words, payload = behind_csrc[4 : 4 + 4 * word_count], behind_csrc[4 + 4 * word_count :]
    if len(words) < 4 * word_count:
        return Refused(9)

    # 10: "first two bytes break a rule above"
    first_two = first_two_bytes(direction, words[0:2])
    if first_two is None:
        return Refused(10)
    field, x = first_two
    # 11: "items, or the bytes after the first two under that X, break a rule above"
    found = items(direction, x, words[2:])
    if found is None:
        return Refused(11)
    # 12: "payload length": "The rest is payload: for 123 none; for 8 exactly 80, 160 or 240 bytes"
    if payload_type == R2S and len(payload) != 0:
        return Refused(12)
    if payload_type == AUDIO and len(payload) not in AUDIO_LENGTHS:
        return Refused(12)
    return Message(sequence, timestamp, ssrc, with_items(field, found), payload)


def first_two_bytes(direction, two):
    """The field without items, and X; None where a rule is broken."""
    # "PTT type 3 bits, SQU 1, ptt-id 6, PM 1, PTTS 1, then in TX three reserved bits,
    #  in RX SCT and two reserved bits, then X."
    b = bits(two)
    field = Field(ptt=value(b[0:3]), squ=value(b[3]), id=value(b[4:10]), pm=value(b[10]), ptts=value(b[11]))
    if direction == TX:
        reserved = b[12:15]
    else:
        field = replace(field, sct=value(b[12]))
        reserved = b[13:15]
    x = value(b[15])
    # "Reserved bits are 0."
    if "1" in reserved:
        return None
    # "SQU is 0 in TX."
    if direction == TX and field.squ != 0:
        return None
    # "6 and 7 are reserved and refused."
    if field.ptt in (6, 7):
        return None
    return field, x


def items(direction, x, rest):
    """The items as a list of (type, value bytes) in their order, type 4 among them; None where a rule is broken."""
    # "X = 0: all remaining bytes are zero." Of the words.
    if x == 0:
        return None if any(rest) else []
    # "X = 1: at least one item; a zero byte where an item would begin ends them,
    #  and all bytes after it are zero." 02: "X = 1 with only such an item is fine"
    found = []
    while rest and rest[0] != 0:
        # "An item is one byte (type in the high half, length .. in the low half)" and as many value bytes as it says
        item_type, length = rest[0] // 16, rest[0] % 16
        content, rest = rest[1 : 1 + length], rest[1 + length :]
        # 02: "it now also covers an item of any type whose value runs past the words"
        if len(content) < length:
            return None
        if not item_allowed(direction, item_type, content):
            return None
        found.append((item_type, content))
    if any(rest) or not found:
        return None
    # "No type comes twice; any order is read." 02: "11 no longer covers type 4, except a second one"
    types = [item_type for item_type, _ in found]
    if len(set(types)) != len(types):
        return None
    return found


def item_allowed(direction, item_type, content):
    # 02: "one type 4 item of any length 0 to 15 is stepped over .., in TX and RX alike"
    if item_type == DDC_TYPE:
        return True
    # "length 1 .. and one value byte"
    if len(content) != 1:
        return False
    b = bits(content)
    # "1 SQI | RX | quality in the high 5 bits; method in the low 3: 0 RSSI, 1 AGC, 2 C/N, 3 PSD.
    #  With RSSI quality is 0 to 15, else 0 to 31"
    if item_type == SQI_TYPE and direction == RX:
        quality_bits, method = value(b[0:5]), value(b[5:8])
        return method in (RSSI, AGC, CARRIER_TO_NOISE, PSD) and not (method == RSSI and quality_bits > 15)
    # "2 CLIMAX | TX | high bit 1; low 7 bits the delay in ms divided by 2"
    if item_type == CLIMAX_TYPE and direction == TX:
        return b[0] == "1"
    # "5 main/standby | both | high bit 0 main, 1 standby; the rest 0"
    if item_type == SIDE_TYPE:
        return "1" not in b[1:8]
    # "Every other type is refused"
    return False


def with_items(field, found):
    # 02: "its value isn't kept": of type 4 the field has nothing
    for item_type, content in found:
        if item_type == SQI_TYPE:
            field = replace(field, sqi=(content[0] // 8, content[0] % 8))
        if item_type == CLIMAX_TYPE:
            field = replace(field, climax=content[0] % 128)
        if item_type == SIDE_TYPE:
            field = replace(field, side=content[0] // 128)
    return field


def line(message):
    """What 01's program prints for one TX packet."""
    if isinstance(message, Refused):
        # "A refused packet prints `refused`, a space and its number."
        return f"refused {message.number}"
    # "Numbers are decimal; kind is R2S or AUDIO; cld is the 7-bit delay value, mss 0 or 1,
    #  `-` an absent item; audio is the payload length."
    f = message.field
    kind = "AUDIO" if message.kind == AUDIO else "R2S"
    cld = "-" if f.climax is None else f.climax
    mss = "-" if f.side is None else f.side
    return (
        f"TX seq={message.sequence} ts={message.timestamp} ssrc={message.ssrc} kind={kind} ptt={f.ptt} id={f.id} "
        f"pm={f.pm} ptts={f.ptts} cld={cld} mss={mss} audio={len(message.audio)}"
    )


# ---- Writers

def write(direction, ext, message, audio, room):
    """Writers: the packet's bytes, or 27, or 26 where the lent buffer has too little room.

    The message's own audio is not looked at; none given means R2S.
    """
    # "Writers 27, 26."
    if refused_by_its_reader(direction, message.field, audio):
        return Refused(27)
    packet = plain(direction, ext, message, audio)
    # 26: "buffer shorter than the packet to write"
    if room < len(packet):
        return Refused(26)
    return packet


def refused_by_its_reader(direction, f, audio):
    """27: "writer given a value its reader would refuse", or that its bits can't hold."""
    # "PTT types: 0 off, .. 5 Test; 6 and 7 are reserved and refused"; "ptt-id 6" bits
    if f.ptt > 5 or f.id > 63:
        return True
    # "low 7 bits the delay"
    if direction == TX and f.climax is not None and f.climax > 127:
        return True
    # "method in the low 3: 0 RSSI, 1 AGC, 2 C/N, 3 PSD. With RSSI quality is 0 to 15, else 0 to 31"
    if direction == RX and f.sqi is not None:
        quality_given, method = f.sqi
        if method > 3 or quality_given > 31 or (method == RSSI and quality_given > 15):
            return True
    # "for 123 none; for 8 exactly 80, 160 or 240 bytes"
    return len(audio) != 0 and len(audio) not in AUDIO_LENGTHS


def plain(direction, ext, message, audio):
    # "Plain form: CC 0, items by rising type, the fewest words that hold them." 02: "Writers never write it."
    f = message.field
    pairs = []
    if direction == RX and f.sqi is not None:
        pairs.append((SQI_TYPE, f.sqi[0] * 8 + f.sqi[1]))
    if direction == TX and f.climax is not None:
        pairs.append((CLIMAX_TYPE, 128 + f.climax))
    if f.side is not None:
        pairs.append((SIDE_TYPE, 128 * f.side))

    squ, sct = (f.squ, f.sct) if direction == RX else (0, 0)
    x = 1 if pairs else 0
    b = f"{f.ptt:03b}{squ:01b}{f.id:06b}{f.pm:01b}{f.ptts:01b}{sct:01b}00{x:01b}"
    words = value(b).to_bytes(2, "big")
    for item_type, byte in pairs:
        words += bytes([16 * item_type + 1, byte])
    while len(words) % 4 != 0:
        words += b"\x00"

    payload_type = AUDIO if audio else R2S
    head = bytes([value("10010000"), payload_type])
    head += message.sequence.to_bytes(2, "big") + message.timestamp.to_bytes(4, "big") + message.ssrc.to_bytes(4, "big")
    return head + ext.to_bytes(2, "big") + (len(words) // 4).to_bytes(2, "big") + words + audio


def quality(level):
    # 02: "The level becomes tenths in a 16-bit signed number: 0 below -1000, 15 above -700,
    #  between them the floor of (level + 1000)/20."
    if level < -1000:
        return 0
    if level > -700:
        return 15
    return (level + 1000) // 20
