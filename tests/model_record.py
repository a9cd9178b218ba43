"""The record of document 01's bench, with the air of 02's fifth request, the kinds of radio of its tenth and the totals of its fourteenth,
and what calls answer. Part of the model, see model.py."""

from dataclasses import dataclass

from model_packet import *

IDLE, RXONLY, TXRX, COUPLING_CALL = "idle", "rxonly", "txrx", "coupling"
# 01: "single radio or pair"; 02: "main and standby under a shared IP address .. a third radio kind"
SINGLE, PAIR, SHARED = "single", "pair", "shared"


@dataclass(frozen=True)
class Setup:
    # "Set-up: which seats are lesson seats (the others are live), the extension type, single radio
    #  or pair, equal-rank mode (lockout or summation), coupling mode (interruption or summation)."

    lessons: frozenset = frozenset({7, 8})
    ext: int = 0x0167
    kind: str = PAIR
    equal_rank: str = "lockout"
    coupling: str = "interruption"


def distance(last, new):
    # "new sequence minus last accepted, taken modulo 65536 into -32768 to 32767"
    return (new - last + 32768) % 65536 - 32768


@dataclass
class Seat:
    """An open seat."""

    number: int
    call: str
    period: int
    multiplier: int
    report_ssrc: int
    report_sequence: int
    left: int  # ms until it is closed by silence
    since_due: int = 0  # ms ticked since its period last ran out
    # "A seat just opened has heard nothing; its last field counts as all zero without items."
    heard: bool = False
    ssrc: int = None
    sequence: int = None
    last: Field = Field()
    keying_began: int = None
    packets: int = 0  # accepted since opening
    account: int = 0  # heard plus missing

    def account_with(self, sequence):
        # 02: "0 if nothing was accepted, else 1 plus the sum of the distances of all accepted packets after the first"
        return self.account + distance(self.sequence, sequence) if self.heard else 1

    @property
    def own_id(self):
        # "The answer is its own ptt-id: the seat number for TxRx and Coupling, else 0."
        return self.number if self.call in (TXRX, COUPLING_CALL) else 0


@dataclass(frozen=True)
class PacketAnswer:
    missing: int
    reply: bool
    side: int
    audio: bytes


@dataclass(frozen=True)
class TotalsAnswer:
    # 02: "heard and missing since opening"
    heard: int
    missing: int


@dataclass(frozen=True)
class TickAnswer:
    # 02: "It answers the closed seats, the due seats and the bytes used"
    closed: tuple
    due: tuple
    sent: bytes


@dataclass(frozen=True)
class Air:
    # 02: "Keep the on-air seats and the top type in the bench record"
    on: tuple = ()
    ptt: int = OFF


def keyed(field):
    # "PTT on and PM 0"
    return field.ptt != OFF and field.pm == 0
