#!/usr/bin/env python3
"""Holds packets to what tshark (Wireshark) reads in them. Not part of the gate.

  tests/tshark.py              packets of the model
  tests/tshark.py --written    the packets that the program write_each prints for the records of tests/written.py

Needs tshark on the PATH; exits 1 at a difference. Each packet goes into a capture as one UDP datagram; tshark is told
that the port carries RTP and knows extension type hex 0167 as the ED-137 radio header. docs/tshark.md says what was seen.
"""

import pathlib
import struct
import subprocess
import sys
import tempfile
from dataclasses import replace

import model
import usage
import written
from handmade import CLIMAX, SQI, STANDBY, built, ddc, words_of
from model import COUPLING, EMERGENCY, NORMAL, OFF, PRIORITY, TEST, Field

PROGRAM = [str(written.ROOT / "ostalenc"), "write_each"]
EXT = 0x0167
PORT = 5004
HEADER = "rtp.ext.ed137a"
# a type 4 value of one of these lengths is shown as a measurement, any other as its bytes
MEASUREMENTS = (3, 12, 14)

# name here, tshark's field
COMPARED = [
    ("version", "rtp.version"),
    ("padding", "rtp.padding"),
    ("extension", "rtp.ext"),
    ("CC", "rtp.cc"),
    ("marker", "rtp.marker"),
    ("payload type", "rtp.p_type"),
    ("sequence", "rtp.seq"),
    ("timestamp", "rtp.timestamp"),
    ("SSRC", "rtp.ssrc"),
    ("extension type", "rtp.ext.profile"),
    ("W", "rtp.ext.len"),
    ("PTT type", f"{HEADER}.ptt_type"),
    ("SQU", f"{HEADER}.squ"),
    ("ptt-id", f"{HEADER}.ptt_id"),
    ("PM", f"{HEADER}.pm"),
    ("PTTS", f"{HEADER}.ptts"),
    ("SCT", f"{HEADER}.sct"),
    ("reserved", f"{HEADER}.reserved"),
    ("X", f"{HEADER}.x"),
    ("item types", f"{HEADER}.ft.type"),
    ("item lengths", f"{HEADER}.ft.len"),
    ("SQI quality", f"{HEADER}.ft.sqi.qidx"),
    ("SQI method", f"{HEADER}.ft.sqi.qidx-ml"),
    ("CLIMAX high bit", f"{HEADER}.ft.climax_delay.mode"),
    ("CLIMAX delay", f"{HEADER}.ft.climax_delay.absolute_value"),
    ("values of types 4 and 5", f"{HEADER}.ft.value"),
    ("payload", "rtp.payload"),
]


def sound(length):
    return bytes((3 * i + 9) % 256 for i in range(length))


def made():
    """(direction, field, audio): all types, each bit alone, all items."""
    for ptt in (OFF, NORMAL, COUPLING, PRIORITY, EMERGENCY, TEST):
        yield model.TX, Field(ptt=ptt, id=ptt + 1), b""
        yield model.RX, Field(ptt=ptt, id=63 - ptt), b""
    for ptt_id in (1, 2, 4, 8, 16, 32):
        yield model.TX, Field(ptt=NORMAL, id=ptt_id), b""
    for bit in ("pm", "ptts"):
        yield model.TX, Field(ptt=NORMAL, id=2, **{bit: 1}), b""
    for bit in ("squ", "pm", "ptts", "sct"):
        yield model.RX, Field(**{bit: 1}), b""
    for climax in (None, 0, 6, 127):
        for side in (None, model.MAIN, model.STANDBY):
            yield model.TX, Field(ptt=NORMAL, id=2, climax=climax, side=side), b""
    for sqi in (None, (0, 0), (7, 0), (15, 0), (31, 1), (16, 2), (31, 3)):
        for side in (None, model.MAIN, model.STANDBY):
            yield model.RX, Field(ptt=EMERGENCY, squ=1, id=61, pm=1, ptts=1, sct=1, sqi=sqi, side=side), b""
    for length in model.AUDIO_LENGTHS:
        yield model.TX, Field(ptt=PRIORITY, id=5, climax=6, side=model.STANDBY), sound(length)
        yield model.RX, Field(squ=1, sqi=(7, 0), side=model.MAIN), sound(length)


def packets():
    """(direction, packet)"""
    for n, (direction, field, audio) in enumerate(made()):
        message = model.Message((65530 + n) % 65536, 160 * n, 0x01020304 + n, field)
        yield direction, model.plain(direction, EXT, message, audio)
    # not plain: CSRC words, items by falling type, zero words
    head = "927B0001000000A000000007" + "AAAAAAAABBBBBBBB" + "01670004"
    yield model.TX, bytes.fromhex(head + "2081" + "5180" + "2186" + "00" * 10)
    yield model.RX, bytes.fromhex(head + "10A9" + "5180" + "1138" + "00" * 10)
    yield from with_type_4()


def with_type_4():
    """(direction, packet): each length alone, first, between, last, and with audio behind."""
    for length in range(16):
        item = ddc(length)
        for direction, field, other in ((model.TX, 0x2081, CLIMAX), (model.RX, 0x1009, SQI)):
            for items in (item, item + other + STANDBY, other + item + STANDBY, other + STANDBY + item):
                yield direction, built(words=words_of(field, items))
            yield direction, built(words=words_of(field, item + other), kind=8, payload=sound(80))


def shown(item_type, content):
    """What tshark shows of an item as bytes; its text for no bytes."""
    if item_type not in (model.DDC_TYPE, model.SIDE_TYPE) or (item_type == model.DDC_TYPE and len(content) in MEASUREMENTS):
        return ""
    return content.hex() or "<MISSING>"


def values(message, cc, word_count, items):
    """The values of COMPARED, in its order; what is absent is an empty text."""
    f = message.field
    rtp = [2, 0, 1, cc, 0, message.kind, message.sequence, message.timestamp, message.ssrc, EXT, word_count]
    field = [f.ptt, f.squ, f.id, f.pm, f.ptts, f.sct, 0, 1 if items else 0]
    types = " ".join(str(item_type) for item_type, _ in items)
    lengths = " ".join(str(len(content)) for _, content in items)
    sqi = f.sqi or ("", "")
    climax = ("", "") if f.climax is None else (1, f.climax)
    contents = " ".join(filter(None, (shown(*item) for item in items)))
    return [str(v) for v in (*rtp, *field, types, lengths, *sqi, *climax, contents, message.audio.hex())]


def by_the_model(direction, packet):
    message = model.read(direction, EXT, packet)
    cc = packet[0] % 16
    words = packet[16 + 4 * cc : len(packet) - len(message.audio)]
    return values(message, cc, len(words) // 4, model.items(direction, words[1] % 2, words[2:]))


def by_the_record(write):
    """What the record asked for, in the plain form; the packet is not looked at."""
    f, items = write.message.field, []
    if f.sqi is not None:
        items.append((model.SQI_TYPE, bytes([8 * f.sqi[0] + f.sqi[1]])))
    if f.climax is not None:
        items.append((model.CLIMAX_TYPE, bytes([128 + f.climax])))
    if f.side is not None:
        items.append((model.SIDE_TYPE, bytes([128 * f.side])))
    message = replace(write.message, audio=written.sound(write.audio))
    return values(message, 0, 2 if len(items) > 1 else 1, items)


def made_by_the_model():
    """(direction, packet, values)"""
    return [(direction, packet, by_the_model(direction, packet)) for direction, packet in packets()]


def made_by_our_writer():
    """(direction, packet, values) of every packet written; with another extension type tshark decodes no words."""
    records = b"".join(write.record() for write in written.writes)
    lines = subprocess.run(PROGRAM, input=records, capture_output=True, check=True).stdout.decode().splitlines()
    for write, line in zip(written.writes, lines, strict=True):
        answer, length, *_, buffer = line.split()
        if answer == "ok" and write.ext == EXT:
            yield write.direction, bytes.fromhex(buffer)[: int(length)], by_the_record(write)


def capture(datagrams):
    """A capture file of raw IPv4 packets, one UDP datagram in each."""
    out = struct.pack("<IHHiIII", 0xA1B2C3D4, 2, 4, 0, 0, 65535, 101)
    for n, datagram in enumerate(datagrams):
        udp = struct.pack(">HHHH", PORT, PORT, 8 + len(datagram), 0) + datagram
        ip = struct.pack(">BBHHHBBH4s4s", 0x45, 0, 20 + len(udp), n, 0, 64, 17, 0, bytes([192, 0, 2, 1]), bytes([192, 0, 2, 2]))
        out += struct.pack("<IIII", n, 0, len(ip + udp), len(ip + udp)) + ip + udp
    return out


def seen_by_tshark(datagrams):
    with tempfile.TemporaryDirectory() as folder:
        path = pathlib.Path(folder) / "packets.pcap"
        path.write_bytes(capture(datagrams))
        command = ["tshark", "-n", "-r", str(path), "-d", f"udp.port=={PORT},rtp", "-T", "fields", "-E", "separator=|", "-E", "aggregator= "]
        for _, name in COMPARED:
            command += ["-e", name]
        done = subprocess.run(command, capture_output=True, text=True, check=True)
    return [line.split("|") for line in done.stdout.splitlines()]


def same(name, ours, theirs):
    """tshark writes some numbers in hex; bytes are compared as they are."""
    if name in ("values of types 4 and 5", "payload"):
        return ours == theirs
    return [int(n, 0) for n in ours.split()] == [int(n, 0) for n in theirs.split()]


def main():
    ours = usage.arguments(__doc__, "--written") == ["--written"]
    cases = list(made_by_our_writer() if ours else made_by_the_model())
    rows = seen_by_tshark([packet for _, packet, _ in cases])
    assert len(rows) == len(cases), "tshark left a packet out"
    differences = 0
    for (direction, packet, expected), row in zip(cases, rows):
        for (name, _), ours, theirs in zip(COMPARED, expected, row, strict=True):
            if not same(name, ours, theirs):
                differences += 1
                print(f"{direction} {packet.hex()}: {name}: expected {ours or 'nothing'}, tshark {theirs or 'nothing'}")
    print(f"{len(cases)} packets, {len(COMPARED)} fields in each, {differences} differences")
    return 1 if differences else 0


if __name__ == "__main__":
    sys.exit(main())
