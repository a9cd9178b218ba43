"""01's printed bench examples, and the traps seen in class. See sessions.py."""

import model
from model import COUPLING, EMERGENCY, NORMAL, OFF, PRIORITY, TEST
from talk import SINGLE, SUMMATION, MAIN, STANDBY


def printed_examples(s):
    s.session("01: Emergency on seat 1, Test on 2: all are told Emergency, id 1")
    s.open("12345678")
    s.packet(1, ptt=EMERGENCY)
    s.packet(2, ptt=TEST)
    s.all_told("12345678", ptt=EMERGENCY, id=1, ptts=0)

    s.session("01: summation, Normal on 2 and 5: seats 2, 5, 7 are told 2, 5, 2, PTTS 1", SUMMATION)
    s.open("257")
    s.packet(2, ptt=NORMAL)
    s.packet(5, ptt=NORMAL)
    s.told(2, ptt=NORMAL, id=2, ptts=1)
    s.told(5, ptt=NORMAL, id=5, ptts=1)
    s.told(7, ptt=NORMAL, id=2, ptts=1)

    s.session("01: period 200, multiplier 10: 1999 ms open, 2000 closed")
    s.open("1")
    s.tick(1000, due="1")
    s.tick(999, due="1")
    s.tick(1, closed="1")
    s.say("close 1", "refused 14 cause 0")

    s.session("01: 65535 then 0: none missing; 10 then 32777: 32766 missing; 10 then 32778: refused 20")
    s.open("123")
    s.packet(1, sequence=65535)
    s.packet(1, "missing=0", sequence=0)
    s.packet(2, sequence=10)
    s.packet(2, "missing=32766", sequence=32777)
    s.packet(3, sequence=10)
    s.packet(3, "refused 20 cause 0", sequence=32778)

    s.session("01, its level in tenths: RX off, SQU, SCT, -850: 10 09 11 38; quality around both ends", SINGLE)
    s.open("3")
    s.say("received 2 -850", "ok")
    s.say("report 3 0 - 20", "0167000110091138")
    whole = ((-1010, 0), (-1000, 0), (-990, 0), (-980, 1), (-850, 7), (-840, 8), (-710, 14), (-700, 15), (-690, 15), (0, 15))
    between = ((-1001, 0), (-981, 0), (-701, 14), (-699, 15), (-680, 15))
    for level, quality in ((-32768, 0), *whole, (32767, 15), *between):
        s.say(f"received 1 {level}", "ok")
        s.told(3, squ=1, sct=0, sqi=(quality, model.RSSI))


def traps(s):
    s.session("trap 1, ranking by code: Test, Coupling, Normal, Priority, Emergency, lowest first")
    s.open("1234")
    s.open("5", "coupling")
    s.open("68", "rxonly")
    for seat, ptt in ((1, TEST), (5, COUPLING), (2, NORMAL), (3, PRIORITY), (4, EMERGENCY)):
        s.packet(seat, ptt=ptt)
        s.all_told(f"{seat}6", ptt=ptt, id=seat, ptts=0)
    for seat, ptt, next_seat in ((4, PRIORITY, 3), (3, NORMAL, 2), (2, COUPLING, 5), (5, TEST, 1)):
        s.packet(seat)
        s.all_told(f"{seat}8", ptt=ptt, id=next_seat)
    s.packet(1)
    s.told(6, ptt=OFF, id=0)

    s.session("trap 2, lesson keyings never stop live ones: the earlier live keying stays on the air")
    s.open("1278")
    s.packet(2, ptt=NORMAL)
    for _ in range(3):
        s.packet(7, ptt=TEST)
        s.packet(8, ptt=TEST)
        s.packet(7)
        s.packet(8)
    s.packet(1, ptt=NORMAL)
    s.all_told("127", ptt=NORMAL, id=2)
    s.packet(2)
    s.told(2, ptt=NORMAL, id=1)

    s.session("trap 3, PTTS of a seat that is not on the air: a muted trainee, then an outranked one")
    s.open("1278")
    s.packet(7, ptt=TEST, pm=1, ptts=1)
    s.told(1, ptt=OFF, id=0, ptts=0, pm=0)
    s.told(7, ptt=OFF, ptts=0, pm=1)
    s.packet(1, ptt=NORMAL)
    s.packet(8, ptt=TEST, ptts=1)
    s.told(2, ptt=NORMAL, id=1, ptts=0)
    s.note("PTTS of the seat on the air counts, and goes when the seat goes")
    s.packet(1, ptt=NORMAL, ptts=1)
    s.told(2, ptts=1)
    s.packet(1, ptts=1)
    s.told(2, ptt=TEST, id=8, ptts=1)
    s.packet(8, ptt=TEST)
    s.told(2, ptt=TEST, id=8, ptts=0)

    s.session("trap 4, a refused packet doesn't feed the silence count")
    s.open("12", period=100, multiplier=3)
    s.packet(1, sequence=5)
    s.packet(2, sequence=5)
    s.tick(299, due="12")
    s.packet(1, "refused 20", sequence=5)
    s.packet(1, "refused 19", sequence=6, ssrc=99)
    s.packet(1, "refused 22", sequence=6, ptt=NORMAL, id=3)
    s.raw(1, b"", "refused 1")
    s.packet(2, sequence=6)
    s.tick(1, closed="1", due="2")
    s.packet(1, "refused 14", sequence=7)
    s.tick(298, due="2")
    s.tick(1, closed="2")

    s.session("trap 5, two switches repeat opposite sides: the side moves once for each change, never for a repeat")
    s.open("12")
    s.packet(1, "side=standby", mss=STANDBY)
    s.packet(2, "side=main", mss=MAIN)
    for _ in range(3):
        s.packet(1, "reply=0 side=main", mss=STANDBY)
        s.packet(2, "reply=0 side=main", mss=MAIN)
    s.told(1, side=MAIN)
    s.packet(1, "reply=1 side=main", mss=MAIN)
    s.packet(1, "reply=1 side=standby", mss=STANDBY)
    s.packet(2, "side=standby", mss=MAIN)
    s.told(2, side=STANDBY)
