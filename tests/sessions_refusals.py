"""Every refusal of the bench's calls, and their orders. See sessions.py."""

from model import COUPLING, NORMAL, OFF, TEST
from talk import SINGLE, MAIN, STANDBY, sound


def refusals(s):
    s.session("refusals 1 to 12 of a packet; none of them moves the seat")
    s.open("2")
    good = s.bytes_of(2, ptt=NORMAL, cld=6, mss=STANDBY)
    changed = [
        (1, good[:11]), (2, b"\x50" + good[1:]), (3, b"\xB0" + good[1:]), (3, good[:1] + b"\xFB" + good[2:]),
        (4, b"\x80" + good[1:]), (5, good[:1] + b"\x09" + good[2:]), (6, good[:15]),
        (7, good[:12] + b"\x01\x68" + good[14:]), (8, good[:14] + b"\x00\x00" + good[16:]),
        (8, good[:14] + b"\x00\x10" + good[16:]), (9, good[:23]), (10, good[:16] + b"\xC0" + good[17:]),
        (10, good[:16] + b"\x30" + good[17:]), (11, good[:18] + b"\x11" + good[19:]), (11, good[:23] + b"\x01"),
        (12, good + b"\x00"), (12, good[:1] + b"\x08" + good[2:]),
    ]
    for number, packet in changed:
        cause = 2012 if number in (10, 11) else 0
        s.raw(2, packet, f"refused {number} cause {cause}")
    s.told(2, ptt=OFF, side=MAIN)
    s.raw(2, good, "ok missing=0 reply=1 side=standby audio=-")

    s.session("13 and 14 come first, for every call with a seat")
    s.raw(0, b"", "refused 13 cause 0")
    s.raw(9, b"\x00", "refused 13 cause 0")
    s.raw(255, good, "refused 13 cause 0")
    s.raw(1, b"", "refused 14 cause 0")
    s.raw(8, good, "refused 14 cause 0")
    for seat in (0, 9, 255):
        s.say(f"open {seat} coupling 0 0 0 0", "refused 13 cause 0")
        s.say(f"close {seat}", "refused 13 cause 0")
        s.say(f"report {seat} 0 00 0", "refused 13 cause 0")
    s.say("close 1", "refused 14 cause 0")
    s.say("report 1 0 00 0", "refused 14 cause 0")

    s.session("open: 15, 16, 17, 18 in this order")
    s.open("1", "coupling")
    s.say("open 1 coupling 0 0 0 0", "refused 15 cause 0")
    s.say("open 1 txrx 200 10 0 0", "refused 15 cause 0")
    for period, multiplier in ((0, 2), (19, 2), (1001, 2), (65535, 2), (20, 0), (20, 1), (20, 51), (20, 255), (19, 51)):
        s.say(f"open 2 txrx {period} {multiplier} 0 0", "refused 16 cause 0")
    s.say("open 7 coupling 19 2 0 0", "refused 16 cause 0")
    s.say("open 7 coupling 20 2 0 0", "refused 17 cause 0")
    s.say("open 8 coupling 1000 50 0 0", "refused 17 cause 0")
    s.say("open 2 coupling 19 2 0 0", "refused 16 cause 0")
    s.say("open 2 coupling 20 2 0 0", "refused 18 cause 2005")
    s.say("open 2 txrx 20 2 0 0", "ok id=2")
    s.say("open 3 rxonly 1000 50 0 0", "ok id=0")
    s.say("open 4 idle 1000 2 0 0", "ok id=0")
    s.say("open 7 txrx 20 50 0 0", "ok id=7")
    s.note("18 goes when the Coupling seat is closed, by hand or by silence")
    s.say("close 1", "ok")
    s.say("open 5 coupling 20 2 0 0", "ok id=5")
    s.tick(40, closed="25", due="7")
    s.say("open 6 coupling 1000 2 0 0", "ok id=6")

    s.session("18 looks at the call type: a Coupling call that keys Normal, or nothing, still bars another")
    s.open("1", "coupling")
    s.say("open 2 coupling 200 10 0 0", "refused 18 cause 2005")
    s.packet(1, ptt=NORMAL)
    s.say("open 2 coupling 200 10 0 0", "refused 18 cause 2005")

    s.session("packet: 19, 20, 21, 22, 23 in this order", SINGLE)
    s.open("2")
    s.packet(2, "refused 23 cause 0", sequence=50, ssrc=9, mss=MAIN)
    s.note("a refused first packet fixes neither SSRC nor sequence")
    s.packet(2, sequence=10)
    s.packet(2, "refused 19 cause 0", sequence=10, ssrc=3, ptt=COUPLING, id=3, mss=MAIN)
    s.packet(2, "refused 20 cause 0", sequence=10, ptt=COUPLING, id=3, mss=MAIN)
    s.packet(2, "refused 20 cause 0", sequence=9)
    s.packet(2, "refused 21 cause 0", sequence=11, ptt=COUPLING, id=3, mss=MAIN)
    s.packet(2, "refused 22 cause 0", sequence=11, ptt=NORMAL, id=3, mss=MAIN)
    s.packet(2, "refused 23 cause 0", sequence=11, ptt=NORMAL, mss=MAIN)
    s.packet(2, "missing=0 reply=1 side=main", sequence=11, ptt=NORMAL)
    s.say("side main", "refused 23 cause 0")
    s.say("side standby", "refused 23 cause 0")
    s.told(2, ptt=NORMAL, id=2, side=None)

    s.session("21: who may key what")
    s.open("1", "idle")
    s.open("2", "rxonly")
    s.open("37")
    s.open("4", "coupling")
    for ptt in range(1, 6):
        s.packet(1, "refused 21", ptt=ptt, id=0)
        s.packet(2, "refused 21", ptt=ptt, id=0)
        s.packet(3, "refused 21" if ptt == COUPLING else "ok", ptt=ptt)
        s.packet(4, "ok", ptt=ptt)
        s.packet(7, "ok" if ptt == TEST else "refused 21", ptt=ptt)
    s.note("PM makes no difference to 21")
    s.packet(1, "refused 21", ptt=NORMAL, id=0, pm=1)
    s.packet(7, "refused 21", ptt=NORMAL, pm=1)

    s.session("22: whose ptt-id; with PTT off 0 passes too")
    s.open("1", "idle")
    s.open("2", "rxonly")
    s.open("3")
    for seat in (1, 2):
        s.packet(seat, "refused 22", id=seat)
        s.packet(seat, "ok missing=0 reply=0", id=0)
    s.packet(3, "ok missing=0 reply=0", id=0)
    s.packet(3, "ok missing=0 reply=1", id=3)
    s.packet(3, "refused 22", id=4)
    s.packet(3, "refused 22", id=63)
    s.packet(3, "refused 22", ptt=NORMAL, id=0)
    s.packet(3, "ok", ptt=NORMAL, id=3)

    s.session("23: a lesson seat's item, also one that would move nothing")
    s.open("17")
    s.packet(7, "refused 23", mss=MAIN)
    s.packet(7, "refused 23", mss=STANDBY)
    s.packet(7, "ok", cld=6)
    s.packet(1, "side=standby", mss=STANDBY)
    s.say("side main", "ok")
    s.told(1, side=MAIN)

    s.session("24: elapsed above 1000; time stands still")
    s.open("1", period=1000, multiplier=2)
    s.say("tick 1001 0 208", "refused 24 cause 0")
    s.say("tick 65535 0 208", "refused 24 cause 0")
    s.tick(1000, due="1")
    s.tick(999)
    s.tick(0)
    s.tick(1, closed="1")

    s.session("25, then 26, and neither uses up a sequence number")
    s.open("3", sequence=65534)
    full = sound(3, 80).hex().upper()
    s.say(f"report 3 0 {full} 300", "refused 25 cause 0")
    s.say("received 1 -800", "ok")
    for length in (1, 79, 81, 241):
        s.say(f"report 3 0 {sound(3, length).hex().upper()} 0", "refused 25 cause 0")
    s.say(f"report 3 0 {full} 103", "refused 26 cause 0")
    s.say("report 3 0 - 23", "refused 26 cause 0")
    s.say("report 3 0 - 0", "refused 26 cause 0")
    s.say("report 3 4294967295 - 24", "ok len=24 907BFFFEFFFFFFFF0000012C01670002")
    s.say(f"report 3 1 {full} 104", "ok len=104 9008FFFF000000010000012C01670002")
    s.say("report 3 2 - 24", "ok len=24 907B0000")
    s.note("more room than the report needs")
    s.say("report 3 3 - 30", "ok len=24 907B0001")
    s.say("received 0 -800", "ok")
    s.say("report 3 4 - 30", "ok len=20 907B0002")
    s.say("report 3 4 - 19", "refused 26 cause 0")
    s.told(3)
