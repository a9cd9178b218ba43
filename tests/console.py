#!/usr/bin/env python3
"""Answers console lines by the model of document 01, tests/model.py.

  tests/console.py <SESSION     prints the expected answer of each line

Words are parted by spaces, tabs and carriage returns; `#` begins a comment; a line without words is not answered.
A line that is no call answers `error: expected` and the call as it is to be written.
"""

import re
import sys

import model
import usage

USAGE = {
    "setup": "setup SEATS EXT single|pair|shared lockout|summation interruption|summation",
    "open": "open SEAT idle|rxonly|txrx|coupling PERIOD MULTIPLIER SSRC SEQUENCE",
    "close": "close SEAT",
    "tick": "tick MS TIMESTAMP ROOM",
    "packet": "packet SEAT HEX",
    "report": "report SEAT TIMESTAMP AUDIO ROOM",
    "received": "received COUNT LEVEL",
    "transmitter": "transmitter healthy|unhealthy",
    "side": "side main|standby",
    "read": "read tx|rx HEX",
    "write": "write tx SEQ TS SSRC PTT ID PM PTTS CLD MSS AUDIO ROOM"
    " or write rx SEQ TS SSRC PTT SQU ID PM PTTS SCT SQI MSS AUDIO ROOM",
    "quality": "quality LEVEL",
    "air": "air",
    "totals": "totals SEAT",
    "help": "help",
}
UNKNOWN = "a call; help prints them"
LONGEST = 2048
TOO_LONG = f"error: expected a line of at most {LONGEST} bytes"

DEFAULT = "setup 78 0167 pair lockout interruption"
SIDES = {"main": model.MAIN, "standby": model.STANDBY}


class Wrong(Exception):
    """A word that is not what the call expects."""


def hexed(some):
    return some.hex().upper() if some else "-"


# ---- What a word says

def number(top):
    def said(word):
        if not re.fullmatch("[0-9]+", word) or int(word) > top:
            raise Wrong
        return int(word)
    return said


byte, half, whole, room = number(255), number(65535), number(4294967295), number(512)


def level(word):
    """In tenths of a dBm."""
    if not re.fullmatch("-?[0-9]+", word) or not -32768 <= int(word) <= 32767:
        raise Wrong
    return int(word)


def data(word):
    if word == "-":
        return b""
    if not re.fullmatch("([0-9A-Fa-f][0-9A-Fa-f])+", word):
        raise Wrong
    return bytes.fromhex(word)


def extension(word):
    if not re.fullmatch("[0-9A-Fa-f]+", word) or int(word, 16) > 65535:
        raise Wrong
    return int(word, 16)


def one_of(*choices):
    def said(word):
        if word not in choices:
            raise Wrong
        return word
    return said


def bit(word):
    return int(one_of("0", "1")(word))


def absent_or(kind):
    return lambda word: None if word == "-" else kind(word)


def sqi(word):
    parts = word.split("/")
    if len(parts) != 2:
        raise Wrong
    return byte(parts[0]), byte(parts[1])


def seats(word):
    if word != "-" and (not re.fullmatch("[1-8]+", word) or len(set(word)) != len(word)):
        raise Wrong
    return frozenset(int(digit) for digit in word if digit != "-")


ARGUMENTS = {
    "setup": (seats, extension, one_of("single", "pair", "shared"), one_of("lockout", "summation"), one_of("interruption", "summation")),
    "open": (byte, one_of("idle", "rxonly", "txrx", "coupling"), half, byte, whole, half),
    "close": (byte,),
    "tick": (half, whole, room),
    "packet": (byte, data),
    "report": (byte, whole, data, room),
    "received": (byte, level),
    "transmitter": (one_of("healthy", "unhealthy"),),
    "side": (one_of("main", "standby"),),
    "read": (one_of("tx", "rx"), data),
    "write tx": (one_of("tx"), half, whole, whole, byte, byte, bit, bit, absent_or(byte), absent_or(bit), data, room),
    "write rx": (one_of("rx"), half, whole, whole, byte, bit, byte, bit, bit, bit, absent_or(sqi), absent_or(bit), data, room),
    "quality": (level,),
    "air": (),
    "totals": (byte,),
    "help": (),
}


def arguments(call, words):
    kinds = ARGUMENTS.get(f"write {words[0]}" if call == "write" and words else call)
    if kinds is None or len(kinds) != len(words):
        raise Wrong
    return [said(word) for said, word in zip(kinds, words)]


# ---- How an answer is written

def refused(answer):
    return f"refused {answer.number} cause {answer.cause}"


def shown_seats(numbers):
    return "".join(str(n) for n in numbers) or "-"


def packet_written(answer):
    return f"ok len={len(answer)} {hexed(answer)}"


def rx_line(message):
    """Made like 01's TX line: an item that is absent is `-`."""
    f = message.field
    kind = "AUDIO" if message.kind == model.AUDIO else "R2S"
    quality = "-" if f.sqi is None else "{}/{}".format(*f.sqi)
    mss = "-" if f.side is None else f.side
    return (
        f"RX seq={message.sequence} ts={message.timestamp} ssrc={message.ssrc} kind={kind} ptt={f.ptt} squ={f.squ} id={f.id} "
        f"pm={f.pm} ptts={f.ptts} sct={f.sct} sqi={quality} mss={mss} audio={len(message.audio)}"
    )


class Console:
    def __init__(self):
        self.answer(DEFAULT)

    def answer(self, line):
        """The answer to one line, or None for a line without words."""
        if len(line) > LONGEST:
            return TOO_LONG
        call, *words = re.split("[ \t\r]+", line.split("#")[0].strip(" \t\r"))
        if not call:
            return None
        if call not in USAGE:
            return f"error: expected {UNKNOWN}"
        try:
            given = arguments(call, words)
        except Wrong:
            return f"error: expected {USAGE[call]}"
        answer = getattr(self, call)(*given)
        return refused(answer) if isinstance(answer, model.Refused) else answer

    def help(self):
        return "\n".join(USAGE.values())

    def setup(self, lessons, ext, kind, equal_rank, coupling):
        self.bench = model.Bench(model.Setup(lessons, ext, kind, equal_rank, coupling))
        return "ok"

    def open(self, *given):
        answer = self.bench.open(*given)
        return answer if isinstance(answer, model.Refused) else f"ok id={answer}"

    def close(self, seat):
        return self.bench.close(seat) or "ok"

    def tick(self, *given):
        answer = self.bench.tick(*given)
        if isinstance(answer, model.Refused):
            return answer
        seats = f"closed={shown_seats(answer.closed)} due={shown_seats(answer.due)}"
        return f"ok {seats} used={len(answer.sent)} {hexed(answer.sent)}"

    def packet(self, seat, packet):
        answer = self.bench.packet(seat, packet)
        if isinstance(answer, model.Refused):
            return answer
        side = "main" if answer.side == model.MAIN else "standby"
        return f"ok missing={answer.missing} reply={int(answer.reply)} side={side} audio={hexed(answer.audio)}"

    def report(self, *given):
        answer = self.bench.report(*given)
        return answer if isinstance(answer, model.Refused) else packet_written(answer)

    def received(self, count, level):
        self.bench.received(count, level)
        return "ok"

    def transmitter(self, state):
        self.bench.transmitter(state == "healthy")
        return "ok"

    def side(self, side):
        return self.bench.side(SIDES[side]) or "ok"

    def read(self, direction, packet):
        answer = model.read(direction.upper(), self.bench.setup.ext, packet)
        if isinstance(answer, model.Refused):
            return answer
        return model.line(answer) if direction == "tx" else rx_line(answer)

    def write(self, direction, sequence, timestamp, ssrc, *rest):
        *values, audio, room = rest
        if direction == "tx":
            ptt, ptt_id, pm, ptts, cld, mss = values
            field = model.Field(ptt=ptt, id=ptt_id, pm=pm, ptts=ptts, climax=cld, side=mss)
        else:
            ptt, squ, ptt_id, pm, ptts, sct, quality, mss = values
            field = model.Field(ptt=ptt, squ=squ, id=ptt_id, pm=pm, ptts=ptts, sct=sct, sqi=quality, side=mss)
        message = model.Message(sequence, timestamp, ssrc, field)
        answer = model.write(direction.upper(), self.bench.setup.ext, message, audio, room)
        return answer if isinstance(answer, model.Refused) else packet_written(answer)

    def quality(self, level):
        return f"ok quality={model.quality(level)}"

    def air(self):
        return f"ok on={shown_seats(self.bench.air.on)} ptt={self.bench.air.ptt}"

    def totals(self, seat):
        answer = self.bench.totals(seat)
        return answer if isinstance(answer, model.Refused) else f"ok heard={answer.heard} missing={answer.missing}"


def answers(lines):
    """The answers to a run of lines, lines without words left out."""
    console = Console()
    return [answer for answer in map(console.answer, lines) if answer is not None]


def answered(some):
    """What the console writes for these bytes; a last line may have no end."""
    lines = some.decode("latin-1").split("\n")
    return "".join(answer + "\n" for answer in answers(lines)).encode("latin-1")


if __name__ == "__main__":
    usage.arguments(__doc__)
    sys.stdout.buffer.write(answered(sys.stdin.buffer.read()))
