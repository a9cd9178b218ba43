"""What a line may look like, what it may not, and packets read by themselves. See sessions.py."""

import model
from talk import sound

R2S = "907B0001000000000000000701670001"


def expects(s, call, *rest):
    """Lines of one call that are not what it expects."""
    for words in rest:
        s.say(f"{call} {words}".rstrip(" "), f"error: expected {call}")


def blanks(s):
    s.session("blanks, comments, and lines without words")
    for line in ("", " ", "\t", "\r", " \t \r", "#", "   # close 1", "#close 1"):
        s.pass_over(line)
    for line in ("\topen  1\ttxrx 200 10 0 0", "open 2 txrx 200 10 0 0\r", "  open 3 txrx 200 10 0 0  # a comment"):
        s.say(line, "ok")
    s.say("close 1#2", "ok")
    s.say("close 2 # 3 #", "ok")
    s.say("close#3", "error: expected close SEAT")
    s.say("close 3 4", "error: expected close SEAT")
    s.say("close 3 \x00", "error: expected close SEAT")
    s.say("close\x0b3", "error: expected a call")
    s.say("close 3", "ok")


def wrong_calls(s):
    s.session("lines that are no call; the session goes on")
    for line in ("clos 1", "Close 1", "\x00", "-"):
        s.say(line, "error: expected a call")
    expects(s, "setup", "", "77 0167 pair lockout interruption", "- 10000 pair lockout interruption", "- 0 pair lockout interruption more")
    expects(s, "open", "256 txrx 200 10 0 0", "1 txrx 65536 10 0 0", "1 txrx 200 256 0 0", "1 txrx 200 10 4294967296 0", "1 txrx 200 10 0 65536")
    expects(s, "close", "", "4294967297", "1 1")
    expects(s, "tick", "65536 0 208", "200 4294967296 208", "200 0 513")
    s.say("tick 200", "error: expected tick MS TIMESTAMP ROOM")
    expects(s, "packet", "1 907", "1 9G")
    expects(s, "report", "1 0 - 513", "1 4294967296 - 20")
    expects(s, "received", "256 0", "1 32768", "1 -32769")
    expects(s, "transmitter", "Healthy")
    expects(s, "side", "main standby")
    expects(s, "read", "xx 90")
    expects(s, "write", "tx 1 0 7 1 2 2 0 - - - 20", "tx 1 0 7 256 2 0 0 - - - 20", "rx 1 0 7 0 1 0 0 0 0 7 - - 20", "rx 1 0 7 1 2 0 0 - - - 20")
    expects(s, "quality", "", "32768", "-32769", "-85.0", "0 -850")
    expects(s, "air", "1", "-")
    expects(s, "totals", "", "256", "-", "1 1")
    expects(s, "help", "me")


def wrong_words(s):
    """At length: every word of every call, in many wrong ways; packets that fill a line. Run by driven.py."""
    s.session("words that are not what the call expects")
    s.say(f"read tx {'00' * 1020}", "refused 2 cause 0")
    s.say(f"packet 9 {R2S}20800000{'00' * 999}", "refused 13 cause 0")
    for line in ("clos 1", "closed 1", "Close 1", "CLOSE 1", "\x00", "-", "1", "tx", "\xFF", "close\x001", "Quality 0", "qualit 0", "qualities 0", "quality-850",
                 "Air", "AIR", "ai", "airs", "air1", "air\x00", "on", "total 1", "Totals 1", "totals1"):
        s.say(line, "error: expected a call")
    expects(s, "setup", "", "78 0167 pair lockout", "78 0167 pair lockout interruption more", "9 0167 pair lockout interruption")
    expects(s, "setup", *(f"{seats} 0167 pair lockout interruption" for seats in ("0", "77", "7-", "--", "7,8", "787", "a")))
    expects(s, "setup", *(f"- {ext} pair lockout interruption" for ext in ("-", "10000", "0x0167", "016G", "-1")))
    expects(s, "setup", "- 0 Pair lockout interruption", "- 0 Shared lockout interruption", "- 0 share lockout interruption", "- 0 pair shared lockout interruption",
            "- 0 single|pair lockout interruption", "- 0 pair interruption lockout", "- 0 pair lockout lockout")
    expects(s, "open", "", "1", "1 txrx 200 10 0", "1 txrx 200 10 0 0 0", "1 TxRx 200 10 0 0", "txrx 1 200 10 0 0")
    expects(s, "open", *(f"{seat} txrx 200 10 0 0" for seat in ("256", "-1", "+1", "1.", "0x1", "-", "1e0", "99999999999999999999")))
    expects(s, "open", "1 txrx 65536 10 0 0", "1 txrx 200 256 0 0", "1 txrx 200 10 4294967296 0", "1 txrx 200 10 0 65536")
    expects(s, "close", "", "256", "-", "a", "1 1", "4294967297", "18446744073709551617")
    expects(s, "tick", "", "0", "1 1", "65536 0 208", "-1 0 208", "- 0 208", "4294967296 0 208", "0 0 208 0", "0 0 - 208", "0 - 0 208")
    expects(s, "tick", *(f"0 {timestamp} 208" for timestamp in ("4294967296", "-1", "-", "0x0", "18446744073709551616")))
    expects(s, "tick", *(f"0 0 {size}" for size in ("513", "65535", "65536", "65744", "4294967504", "-", "-208", "208.")))
    expects(s, "packet", "", "1", "1 9", "1 907", "1 90 7B", "1 9G", "1 0x90", "256 -", "1 - -", "1 --")
    expects(s, "report", "", "1 0 -", "1 0 - 513", "1 0 - -", "1 4294967296 - 20", "1 0 0 20", "256 0 - 20", "1 0 - 20 1", "1 0 - 65536")
    expects(s, "received", "", "1", "256 0", "-1 0", "1 32768", "1 -32769", "1 -", "1 --1", "1 +1", "1 -1 0", "1 -99999999999999999999")
    expects(s, "transmitter", "", "Healthy", "ok", "healthy unhealthy", "1")
    expects(s, "side", "", "Main", "0", "main standby", "mainstandby")
    expects(s, "read", "", "tx", "tx 9", "TX 90", "xx 90", "tx 90 90", f"{R2S}")
    expects(s, "quality", "", "32768", "-32769", "-", "--1", "+1", "1-", "1 1", "1 -850", "- 850", "-85.0", "-850,", "0x10", "1e3", "a")
    expects(s, "quality", "-850 tenths", "-850 -", "-99999999999999999999", "99999999999999999999", "65536", "-65536", "4294967296", "18446744073709551616")
    expects(s, "air", "0", "1", "9", "-", "12", "on", "air", "\x00")
    expects(s, "totals", "", "256", "-1", "-", "a", "1 1", "4294967297", "18446744073709551617")
    expects(s, "help", "me")
    tx, rx = "1 0 7 1 2 0 0 - - - 20", "1 0 7 0 1 0 0 0 0 - - - 20"
    expects(s, "write", "", "tx", "rx", f"xx {tx}", f"tx {rx}", f"rx {tx}", f"tx {tx} 1", f"tx {tx}00", f"rx {rx}00")
    for place, words in ((0, ("65536", "-")), (1, ("4294967296",)), (2, ("4294967296",)), (3, ("256", "-")), (4, ("256",)),
                         (5, ("2", "-", "00")), (6, ("2",)), (7, ("256", "--", "6/0")), (8, ("2", "main")), (9, ("0", "GG")), (10, ("513", "-"))):
        expects(s, "write", *("tx " + " ".join(tx.split()[:place] + [word] + tx.split()[place + 1 :]) for word in words))
    for place, words in ((4, ("2",)), (5, ("256",)), (6, ("2",)), (7, ("2",)), (8, ("2",)),
                         (9, ("7", "7/", "/0", "/", "7/0/0", "256/0", "7/256", "7-0", "-/-")), (10, ("2",))):
        expects(s, "write", *("rx " + " ".join(rx.split()[:place] + [word] + rx.split()[place + 1 :]) for word in words))


def values(s):
    s.session("what a number may look like, and the largest of each kind")
    s.say("open 001 txrx 00200 010 4294967295 65535", "ok id=1")
    s.say("close 0000000000000000000000000000001", "ok")
    s.say("open 255 txrx 65535 255 4294967295 65535", "refused 13")
    s.say("tick 65535 4294967295 512", "refused 24")
    s.say("tick 00001001 0 00", "refused 24")
    for level, quality in (("32767", 15), ("-32768", 0), ("0", 15), ("-0", 15), ("-0850", 7)):
        s.say(f"received 255 {level}", "ok")
        s.say(f"quality {level}", f"ok quality={quality}")
    s.say("report 0 4294967295 - 512", "refused 13")
    for ext in ("167", "FfFf"):
        s.say(f"setup 87654321 {ext} single summation summation", "ok")
        s.say("write tx 1 0 7 1 2 0 0 - - - 512", f"{int(ext, 16):04X}0001")
    s.say(f"setup - 0167 pair lockout interruption", "ok")
    s.say(f"write tx 1 0 7 1 2 0 0 - - {'0a' * 80} 512", f"ok len=100 9008000100000000000000070167000120800000{'0A' * 80}")
    s.say("write rx 65535 4294967295 4294967295 255 1 255 1 1 1 255/255 1 - 512", "refused 27")


def reads(s):
    s.session("packets read by themselves, in both directions")
    s.say(f"read tx {R2S}20800000", "TX seq=1 ts=0 ssrc=7 kind=R2S ptt=1 id=2 pm=0 ptts=0 cld=- mss=- audio=0")
    s.say(f"read rx {R2S}20800000", "RX seq=1 ts=0 ssrc=7 kind=R2S ptt=1 squ=0 id=2 pm=0 ptts=0 sct=0 sqi=- mss=- audio=0")
    s.say(f"read rx {R2S}10091138", "ptt=0 squ=1 id=0 pm=0 ptts=0 sct=1 sqi=7/0 mss=- audio=0")
    s.say(f"read rx {R2S}8F515180".lower(), "ptt=4 squ=0 id=61 pm=0 ptts=1 sct=0 sqi=- mss=1 audio=0")
    s.say("read tx -", "refused 1 cause 0")
    s.say(f"read tx {R2S}30800000", "refused 10 cause 2012")
    s.say(f"read tx {R2S}20811138", "refused 11 cause 2012")
    s.say(f"read rx {R2S}20812186", "refused 11 cause 2012")
    s.say(f"read rx {R2S}2080000000", "refused 12 cause 0")
    for direction, field in (("tx", dict(ptt=5, id=63, pm=1, ptts=1, climax=127, side=1)), ("rx", dict(ptt=3, squ=1, id=8, sct=1, sqi=(31, 3), side=0))):
        for length in (0, 80):
            message = model.Message(65535, 4294967295, 2147483648, model.Field(**field))
            packet = model.plain(direction.upper(), 0x0167, message, sound(1, length))
            s.say(f"read {direction} {packet.hex()}", f"audio={length}")


def lengths(s):
    s.session("a line of 2,048 bytes is read whole, a longer one is not, whatever it holds")
    s.say("tick 0 0 208".ljust(2048), "ok")
    s.say("# tick 0 0 208".ljust(2049), "error: expected a line of at most 2048 bytes")
    s.say("help", "write rx SEQ TS SSRC PTT SQU ID PM PTTS SCT SQI MSS AUDIO ROOM\nquality LEVEL\nair\ntotals SEAT\nhelp")
    s.say("tick 0 0 208 # the last line has no end", "ok")


def lines(s):
    for part in (blanks, wrong_calls, values, reads, lengths):
        part(s)
