"""An independent model of document 01, as the requests of document 02 change it: packets and the bench.

It is written from their sentences alone, shares no code with the library and takes other
ways where it can: fields are cut from a string of bits, items are a list of (type, value)
pairs, and a keying keeps the number of the packet that began it, in a number without end.
The tests work out their expected answers with it: `import model` gives both parts, packets
(model_packet.py) and the bench (model_bench.py, over its record, model_record.py). Run by itself
this file tries 01's printed examples and 02's levels on the model. Open points are read as in
docs/DECISIONS.md.
"""

from model_bench import *
from model_packet import *


def try_examples():
    def words_written(direction, field):
        packet = write(direction, 0x0167, Message(0, 0, 0, field), b"", 1000)
        assert read(direction, 0x0167, packet).field == field
        return packet[16:].hex(" ").upper()

    # "P fields"
    assert words_written(TX, Field(ptt=NORMAL, id=2)) == "20 80 00 00"
    assert words_written(TX, Field(ptt=EMERGENCY, id=61, ptts=1, side=STANDBY)) == "8F 51 51 80"
    assert words_written(TX, Field(ptt=NORMAL, id=2, climax=12 // 2, side=MAIN)) == "20 81 21 86 51 00 00 00"
    assert words_written(RX, Field(squ=1, sct=1, sqi=(quality(-850), RSSI))) == "10 09 11 38"
    # "P order: 65535 then 0: none missing. 10 then 32777: 32766 missing. 10 then 32778: refused 20."
    assert distance(65535, 0) - 1 == 0 and distance(10, 32777) - 1 == 32766 and distance(10, 32778) <= 0
    # the program's line
    packet = bytes.fromhex("90 7B 00 01 00 00 00 00 00 00 00 07 01 67 00 01 20 80 00 00")
    assert line(read(TX, 0x0167, packet)) == (
        "TX seq=1 ts=0 ssrc=7 kind=R2S ptt=1 id=2 pm=0 ptts=0 cld=- mss=- audio=0")

    def bench_with(setup, keyings):
        """Seats 1 to 8 open as TxRx, those in keyings keyed in the order given."""
        bench = Bench(setup)
        for n in range(1, 9):
            bench.open(n, TXRX, 200, 10, 0, 0)
        for n, ptt in keyings:
            packet = write(TX, setup.ext, Message(1, 0, n, Field(ptt=ptt, id=n)), b"", 1000)
            assert isinstance(bench.packet(n, packet), PacketAnswer)
        return bench

    def told(bench, n):
        return read(RX, bench.setup.ext, bench.report(n, 0, b"", 1000)).field

    # "Emergency on seat 1, Test on 2: all are told Emergency, id 1."
    bench = bench_with(Setup(), [(1, EMERGENCY), (2, TEST)])
    assert {(told(bench, n).ptt, told(bench, n).id) for n in range(1, 9)} == {(EMERGENCY, 1)}
    # "Summation, Normal on 2 and 5: seats 2, 5, 7 are told 2, 5, 2, PTTS 1."
    bench = bench_with(Setup(equal_rank="summation"), [(2, NORMAL), (5, NORMAL)])
    assert [(told(bench, n).id, told(bench, n).ptts) for n in (2, 5, 7)] == [(2, 1), (5, 1), (2, 1)]
    # "Period 200, multiplier 10: 1999 ms open, 2000 closed."
    bench = bench_with(Setup(), [])
    assert [bench.tick(ms, 0, 208).closed for ms in (1000, 999, 1)] == [(), (), (1, 2, 3, 4, 5, 6, 7, 8)]
    print("01's printed examples hold in the model")


def try_levels():
    # "P quality: -101 gives 0, -99 gives 0, -98 gives 1, -71 gives 14, -70 gives 15.", in tenths:
    # 02: "01's quality cases change with it."
    assert [quality(level) for level in (-1010, -990, -980, -710, -700)] == [0, 0, 1, 14, 15]
    # 02: "0 below -1000, 15 above -700"; -981 and -680: the last level before the first step, and where a quality of 16 would begin
    ends = {-32768: 0, -1001: 0, -1000: 0, -981: 0, -701: 14, -699: 15, -680: 15, 32767: 15}
    assert {level: quality(level) for level in ends} == ends

    def before(level):
        # 01: "quality 0 below -100 dBm, 15 above -70, between them the floor of (level + 100)/2"
        return 0 if level < -100 else 15 if level > -70 else (level + 100) // 2

    # 02: "Whole-dBm levels that fit keep their quality."
    fitting = [whole for whole in range(-32768, 32768) if -32768 <= 10 * whole <= 32767]
    assert [quality(10 * whole) for whole in fitting] == [before(whole) for whole in fitting]
    print("02's levels hold in the model")


if __name__ == "__main__":
    try_examples()
    try_levels()
