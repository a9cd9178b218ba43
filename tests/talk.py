"""Console sessions as they are written down: each line is tried on the model and kept with its answer."""

import console
import model
from handmade import records, with_ddc
from model import OFF

PAIR = "setup 78 0167 pair lockout interruption"
SINGLE = "setup 78 0167 single lockout interruption"
SHARED = "setup 78 0167 shared lockout interruption"
SUMMATION = "setup 78 0167 pair summation interruption"
COUPLING_SUMMATION = "setup 78 0167 pair lockout summation"
ALL_SUMMATION = "setup 78 0167 pair summation summation"

MAIN, STANDBY = 0, 1


def sound(seat, length):
    return bytes((16 * seat + i) % 256 for i in range(length))


def shows(answer, expected):
    """A part of the answer; of refusals, ticks, openings, qualities, the air and totals its first words, whole."""
    if expected.startswith(("refused", "ok closed", "ok id", "ok quality", "ok on", "ok heard")):
        return (answer + " ").startswith(expected + " ")
    return expected in answer


def without_sequence(answer):
    """An answer without bytes 2 and 3 of each report in it."""
    *words, last = answer.split()
    if answer.startswith("ok closed="):
        return words, [report[:2] + report[4:] for report in records(answer)]
    return (words, last[:4] + last[8:]) if answer.startswith("ok len=") else answer


class Sessions:
    """Lines with their answers, written down as they are tried."""

    def __init__(self):
        self.lines, self.answers, self.sessions = [], [], 0
        self.console = console.Console()
        self.next = {}

    def session(self, title, setup=PAIR):
        self.sessions += 1
        self.lines.append(f"# {title}")
        self.say(setup, "ok")
        self.next = {n: 1 for n in range(0, 256)}

    def note(self, text):
        self.lines.append(f"# {text}")

    def say(self, line, expected):
        """expected: what the line is there to show, written by hand."""
        answer = self.console.answer(line)
        assert shows(answer, expected), (line, expected, answer)
        # 02: the on-air seats and the top type are kept "right after every call"
        bench = self.console.bench
        assert bench.air == bench.worked_out_air(), (line, bench.air)
        self.lines.append(line)
        self.answers.append(answer)
        return answer

    def pass_over(self, line):
        """A line that is not answered."""
        assert self.console.answer(line) is None, line
        self.lines.append(line)

    def open(self, seats, call="txrx", period=200, multiplier=10, sequence=0):
        """Opens each seat of a text of digits; its reports have SSRC 100 times the seat."""
        for digit in seats:
            own = digit if call in ("txrx", "coupling") else "0"
            self.say(f"open {digit} {call} {period} {multiplier} {digit}00 {sequence}", f"ok id={own}")

    def bytes_of(self, seat, ptt=OFF, id=None, pm=0, ptts=0, cld=None, mss=None, audio=0, sequence=None, ssrc=None, ddc=b"", at=0):
        """The next packet of a seat, in plain form but for a type 4 item behind the first `at` bytes of its items."""
        if sequence is None:
            sequence = self.next[seat]
        self.next[seat] = (sequence + 1) % 65536
        field = model.Field(ptt=ptt, id=seat if id is None else id, pm=pm, ptts=ptts, climax=cld, side=mss)
        message = model.Message(sequence, 0, seat if ssrc is None else ssrc, field)
        packet = model.plain(model.TX, self.console.bench.setup.ext, message, sound(seat, audio))
        return with_ddc(packet, ddc, at) if ddc else packet

    def raw(self, seat, packet, expected):
        return self.say(f"packet {seat} {console.hexed(packet)}", expected)

    def packet(self, seat, expected="ok missing=0", **values):
        """A packet; a refused one doesn't use up its sequence number."""
        before = self.next[seat]
        answer = self.raw(seat, self.bytes_of(seat, **values), expected)
        if answer.startswith("refused"):
            self.next[seat] = before

    def report_size(self):
        """A report has 20 bytes, 24 with both items: SQI while a signal is received, main/standby on all but a single radio."""
        bench = self.console.bench
        return 24 if bench.setup.kind != model.SINGLE and bench.signals > 0 else 20

    def tick(self, ms, closed="-", due="-"):
        """A tick, the seats closed and those due in digits or `-`. It sends a report to each due seat, behind two bytes."""
        used = (2 + self.report_size()) * len(due.strip("-"))
        self.say(f"tick {ms} 0 208", f"ok closed={closed} due={due} used={used}")

    def told(self, seat, audio=0, **expected):
        """A report with just the room it needs; its fields are held to those expected."""
        bench, size = self.console.bench, self.report_size() + audio
        words = self.say(f"report {seat} 0 {console.hexed(sound(seat, audio))} {size}", f"ok len={size}").split()
        field = model.read(model.RX, bench.setup.ext, bytes.fromhex(words[2])).field
        for name, value in expected.items():
            assert getattr(field, name) == value, (self.lines[-1], name, value, field)

    def all_told(self, seats, **expected):
        for digit in seats:
            self.told(int(digit), **expected)

    def air(self, on, ptt):
        """Asks who is on the air, the seats in digits or `-`, and with which top type."""
        self.say("air", f"ok on={on} ptt={ptt}")

    def totals(self, seat, heard, missing):
        """Asks how many packets of a seat were heard and missing since it was opened."""
        self.say(f"totals {seat}", f"ok heard={heard} missing={missing}")

    def save(self, folder):
        """The last line has no end."""
        (folder / "stdin").write_text("\n".join(self.lines), encoding="latin-1", newline="")
        (folder / "stdout").write_text("".join(answer + "\n" for answer in self.answers))
