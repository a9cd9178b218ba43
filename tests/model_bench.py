"""Document 01's bench, levels as in 02's third request, the air kept as in its fifth, ticks with their reports as in its sixth, the
kinds of radio of its tenth, totals as in its fourteenth: its calls, who is on the air, reports. Part of the model, see model.py."""

from model_packet import *
from model_record import *


# ---- The bench and its calls

def framed(packet):
    # RFC 4571, 2: an unsigned LENGTH of 16 bits in network byte order, then a packet of so many octets
    return len(packet).to_bytes(2, "big") + packet


# "Rank: Test, Coupling, Normal, Priority, Emergency, lowest first."
RANKS = [TEST, COUPLING, NORMAL, PRIORITY, EMERGENCY]


class Bench:
    def __init__(self, setup):
        # "At the start no seat is open, main is in use, the transmitter is healthy, no signal is received."
        self.setup = setup
        self.seats = {n: None for n in range(1, 9)}
        self.side_in_use = MAIN
        self.healthy = True
        self.signals = 0
        self.level = 0
        self.keyings = 0  # how many keyings have begun; Python's numbers don't run out
        self.air = Air()  # as `keep_air` left it

    # -- seats

    def no_such_seat(self, n):
        # 13: "seat not 1 to 8"
        return not 1 <= n <= 8

    def not_open(self, n):
        # 14: "seat not open"
        return self.seats[n] is None

    def lesson(self, n):
        return n in self.setup.lessons

    def open(self, n, call, period, multiplier, ssrc, sequence):
        # "Open 13, 15 to 18."
        refused = first_refusal(
            (13, lambda: self.no_such_seat(n)),
            # 15: "seat open already"
            (15, lambda: not self.not_open(n)),
            # 16: "period or multiplier": "R2S period 20 to 1000 ms, multiplier 2 to 50"
            (16, lambda: not (20 <= period <= 1000 and 2 <= multiplier <= 50)),
            # 17: "lesson seat asks Coupling"
            (17, lambda: self.lesson(n) and call == COUPLING_CALL),
            # 18: "Coupling asked while another seat is Coupling": by its call type
            (18, lambda: call == COUPLING_CALL and any(s and s.call == COUPLING_CALL for s in self.seats.values())),
        )
        if refused:
            return refused
        # "Opening and each accepted packet set a seat's time left to period times multiplier ms."
        self.seats[n] = Seat(n, call, period, multiplier, ssrc, sequence, left=period * multiplier)
        self.keep_air()
        return self.seats[n].own_id

    def close(self, n):
        # "Close 13, 14."
        refused = first_refusal((13, lambda: self.no_such_seat(n)), (14, lambda: self.not_open(n)))
        if refused:
            return refused
        # "It can be opened again at once."
        self.seats[n] = None
        self.keep_air()
        return None

    # -- packets

    def packet(self, n, data):
        # "Packet 13, 14, 1 to 12, 19 to 23."; 02: "33, after 23"
        refused = first_refusal((13, lambda: self.no_such_seat(n)), (14, lambda: self.not_open(n)))
        if refused:
            return refused
        message = read(TX, self.setup.ext, data)
        if isinstance(message, Refused):
            return message
        seat, new = self.seats[n], message.field
        refused = first_refusal(
            # "The first accepted packet fixes the seat's SSRC and has 0 missing."
            # 19: "other SSRC"
            (19, lambda: seat.heard and message.ssrc != seat.ssrc),
            # 20: "distance 0 or below"
            (20, lambda: seat.heard and distance(seat.sequence, message.sequence) <= 0),
            (21, lambda: self.keying_forbidden(seat, new)),
            # 22: "ptt-id not the seat's own; with PTT off 0 also passes"
            (22, lambda: new.id != seat.own_id and not (new.ptt == OFF and new.id == 0)),
            (23, lambda: self.item_forbidden(n, new.side)),
            # 33: "if heard plus missing would pass 4,000,000,000"
            (33, lambda: seat.account_with(message.sequence) > 4_000_000_000),
        )
        if refused:
            return refused

        # "After that the distance is new sequence minus last accepted, ..; distance minus 1 packets are missing."
        missing = distance(seat.sequence, message.sequence) - 1 if seat.heard else 0

        # "Reply now exactly when the field with its items differs in meaning from the seat's previous accepted one."
        old = seat.last
        reply = new != old

        # "A main/standby item takes effect, setting the side in use, only where that seat's previous
        #  accepted packet carried the other value or no such item. Repeats do nothing."
        # 02, of a shared address: "An item of 0 is accepted and moves nothing"
        if self.setup.kind != SHARED and new.side is not None and new.side != old.side:
            self.side_in_use = new.side

        # "A keying begins at the packet that brought the seat from off, muted or another type"
        if keyed(new) and not (keyed(old) and old.ptt == new.ptt):
            self.keyings += 1
            seat.keying_began = self.keyings

        seat.packets, seat.account = seat.packets + 1, seat.account_with(message.sequence)
        seat.heard, seat.ssrc, seat.sequence, seat.last = True, message.ssrc, message.sequence, new
        # "Opening and each accepted packet set a seat's time left to period times multiplier ms."
        seat.left = seat.period * seat.multiplier
        self.keep_air()

        # "An accepted audio packet's payload is sent, to the side in use, exactly if its seat is on the air after it."
        audio = message.audio if n in self.air.on else b""
        return PacketAnswer(missing, reply, self.side_in_use, audio)

    def totals(self, n):
        # 02: "totals per seat: heard and missing since opening"
        refused = first_refusal((13, lambda: self.no_such_seat(n)), (14, lambda: self.not_open(n)))
        return refused or TotalsAnswer(self.seats[n].packets, self.seats[n].account - self.seats[n].packets)

    def keying_forbidden(self, seat, field):
        # 21: "PTT on for Idle or Rxonly; Coupling PTT for TxRx; lesson seat with PTT on other than Test"
        if field.ptt == OFF:
            return False
        if seat.call in (IDLE, RXONLY):
            return True
        if seat.call == TXRX and field.ptt == COUPLING:
            return True
        return self.lesson(seat.number) and field.ptt != TEST

    def item_forbidden(self, n, item):
        # 23: "main/standby item .. on a single radio; main/standby item from a lesson seat"; 02: "23 also for an item of 1 here;
        # a lesson seat's item is still refused."
        if item is None:
            return False
        return self.setup.kind == SINGLE or self.lesson(n) or (self.setup.kind == SHARED and item == STANDBY)

    # -- time

    def tick(self, ms, timestamp, room):
        # 02: "Refusals: 24, then 26 exactly if the buffer is under 208 bytes"; 24: "elapsed above 1000"
        refused = first_refusal((24, lambda: ms > 1000), (26, lambda: room < 208))
        if refused:
            return refused
        closed, due = [], []
        for n, seat in self.seats.items():
            if seat is None:
                continue
            # "A tick takes its ms from that; the seat is closed if nothing is left."
            seat.left -= ms
            if seat.left <= 0:
                self.seats[n] = None
                closed.append(n)
                # "A closed seat isn't due."
                continue
            # "A seat is due when its period, counted from opening, runs out; several in one tick count once
            #  and the phase is kept."
            seat.since_due += ms
            if seat.since_due >= seat.period:
                seat.since_due %= seat.period
                due.append(n)
        self.keep_air()
        return TickAnswer(tuple(closed), tuple(due), self.sent(due, timestamp, room))

    def sent(self, due, timestamp, room):
        # 02: "writes the R2S report of each due seat, lowest seat first, each behind its two-byte length as in RFC 4571";
        # "Reports show the bench after the tick's closings."
        sent = b""
        for n in sorted(due):
            # "Each report goes straight into what is left of the send buffer."
            report = self.report(n, timestamp, b"", room - len(sent) - 2)
            assert isinstance(report, bytes), (n, room, report)
            sent += framed(report)
        return sent

    # -- radio events

    def received(self, count, level):
        # "signals received (0 to 255) with a level"; 02: "The level becomes tenths in a 16-bit signed number";
        # "the other events are never refused"
        self.signals, self.level = count, level
        self.keep_air()

    def transmitter(self, healthy):
        self.healthy = healthy
        self.keep_air()

    def side(self, side):
        # "Side event 23": "side event on a single radio"; 02: "the radio's own side event still moves the side"
        if self.setup.kind == SINGLE:
            return Refused(23)
        self.side_in_use = side
        self.keep_air()
        return None

    # -- who is on the air

    def taking_part(self):
        # "If the transmitter is unhealthy, nobody does."
        if not self.healthy:
            return []
        # "An open seat takes part if its last accepted packet since opening has PTT on and PM 0;
        #  a closed seat never does."
        return [seat for seat in self.seats.values() if seat and keyed(seat.last)]

    def top_type(self):
        """The type of the top rank among those who take part, or off."""
        types = [seat.last.ptt for seat in self.taking_part()]
        return max(types, key=RANKS.index) if types else OFF

    def on_the_air_at_the_top(self):
        top = [seat for seat in self.taking_part() if seat.last.ptt == self.top_type()]
        # "At the top rank, lockout puts on the air the seat whose present keying began first; summation, all of them."
        if self.setup.equal_rank == "lockout" and top:
            top = [min(top, key=lambda seat: seat.keying_began)]
        return [seat.number for seat in top]

    def on_the_air(self):
        air = self.on_the_air_at_the_top()
        # "With coupling summation a participant keyed Coupling is added when the top rank is above Coupling."
        if self.setup.coupling == "summation" and self.top_type() in (NORMAL, PRIORITY, EMERGENCY):
            air += [seat.number for seat in self.taking_part() if seat.last.ptt == COUPLING]
        return sorted(air)

    def worked_out_air(self):
        return Air(tuple(self.on_the_air()), self.top_type())

    def keep_air(self):
        # 02: ".. right after every call": each accepted one but a report ends with this, a refused one leaves what is kept
        self.air = self.worked_out_air()

    # -- reports

    def report(self, n, timestamp, audio, room):
        # "Report 13, 14, 25, 26."
        squ = 1 if self.signals >= 1 else 0
        refused = first_refusal(
            (13, lambda: self.no_such_seat(n)),
            (14, lambda: self.not_open(n)),
            # 25: "report audio not 0, 80, 160 or 240 bytes, or audio while SQU is 0"
            (25, lambda: len(audio) not in (0, 80, 160, 240) or (len(audio) > 0 and squ == 0)),
        )
        if refused:
            return refused
        seat = self.seats[n]
        message = Message(seat.report_sequence, timestamp, seat.report_ssrc, self.told(seat))
        # "The report is type 8 if audio is given, else 123."
        packet = write(RX, self.setup.ext, message, audio, room)
        if isinstance(packet, Refused):
            return packet
        # "Its sequence goes up by one, wrapping, with each report written."
        seat.report_sequence = (seat.report_sequence + 1) % 65536
        return packet

    def told(self, seat):
        # "Report to a seat."; 02: "and let reports read them"
        air = self.air.on
        # "PTT type: the top type, or off."
        ptt = self.air.ptt
        # those "on the air at the top rank": the others are keyed Coupling and were added
        top = [n for n in air if self.seats[n].last.ptt == ptt]
        # "ptt-id: 0 if off; the seat's own if it is on the air at the top rank; else the smallest on the air
        #  at the top rank."
        if ptt == OFF:
            ptt_id = 0
        elif seat.number in top:
            ptt_id = seat.own_id
        else:
            ptt_id = min(self.seats[n].own_id for n in top)
        # "PM: the seat's own last PM."
        pm = seat.last.pm
        # "PTTS: 1 if two or more seats are on the air, or a seat on the air last sent PTTS 1."
        ptts = 1 if len(air) >= 2 or any(self.seats[n].last.ptts == 1 for n in air) else 0
        # "SQU: 1 signal or more. SCT: 2 or more."
        squ = 1 if self.signals >= 1 else 0
        sct = 1 if self.signals >= 2 else 0
        # "SQI item, method RSSI, exactly if SQU is 1"
        sqi = (quality(self.level), RSSI) if squ == 1 else None
        # "Main/standby item, with the side in use, exactly for a pair."; 02: "with 0, whichever side is in use"
        side = {SINGLE: None, PAIR: self.side_in_use, SHARED: 0}[self.setup.kind]
        return Field(ptt, squ, ptt_id, pm, ptts, sct, sqi, None, side)
