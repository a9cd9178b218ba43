#!/usr/bin/env python3
"""Runs long random sessions of well-formed calls on the console and checks what needs no second implementation:
no `error:` line; the same session twice gives the same answers; a refused call changes nothing (the session without
its refused calls answers the same); a type 4 item is stepped over (the session without them answers the same); a report
tells a quality exactly while a signal is received, and the one that `quality` answers for its level; the air is kept (with
`air` behind each line every other answer is the same, a refused call, a report and totals leave what it answers, a report tells
its top type and one of its seats, audio is sent from its seats alone, and nobody closed is one of them); items move the side of
a pair alone, events that of every radio but a single one, and reports tell it by the kind; totals are those of the packets
accepted since opening (with `totals` behind each line every other answer is the same), and no seat stays open for its period
without being due; a tick is refused by its ms and its room alone, and sends the reports of its due seats (each report, asked
for or sent, has its seat's next sequence number, and one asked for behind the tick tells the same); ticks add up (the session
with two ticks for each answers the same, but for a seat due in the first and closed in the second, and for sequence numbers,
one further for each seat that is due in the first and due or closed in the second); and demand 3 (the session without its
lesson calls answers live seats the same, each report by itself, but for what the demand allows).

  tests/soak.py [LINES] [SEED]     LINES a session, 20,000 if not given; without SEED a session for each kind of radio and choice of modes

The console is run by ./ostalenc, which proves and builds it where it has changed.
"""

import sys

import usage
from soak_lines import LESSONS, MODES, TEST, names_a_lesson, session
from soak_sides import hold_sides
from soak_ticks import hold_reports, hold_singles, hold_ticks
from soak_told import answers, blotted, fail, keys_test, live_seats, reports_in, seat_sets, seats_and_type
from soak_totals import hold_totals

AUDIO = 8


# ---- Qualities

def told_qualities(lines, first):
    """Each report while a signal is received: its line, its quality and the level last received. SQI, the first item, is in no other."""
    signals = level = "0"
    for i, (line, answer) in enumerate(zip(lines, first)):
        words = line.split()
        if words[0] == "received":
            signals, level = words[1:]
        for report in reports_in(line, answer).values():
            item, value = report[18:20]
            if (item == 0x11) != (signals != "0"):
                fail("an SQI item without a signal, or a signal without it", lines, i)
            if item == 0x11:
                yield i, value >> 3, level


def hold_qualities(lines, first):
    """The levels of such reports are asked in a run of their own. Answers how many reports there are."""
    told = list(told_qualities(lines, first))
    levels = sorted({level for _, _, level in told})
    asked = dict(zip(levels, answers([f"quality {level}" for level in levels]), strict=True))
    for i, quality, level in told:
        if asked[level] != f"ok quality={quality}":
            fail(f"another quality than `quality {level}` answers", lines, i)
    return len(told)


# ---- The air

def tells_air(report, on, ptt):
    """Whether a report tells this type, one of these seats, and PTTS where there are several."""
    field = int.from_bytes(report[16:18], "big")
    told, ptt_id, ptts = field >> 13, field >> 6 & 63, field >> 4 & 1
    if not on:
        return ptt == told == ptt_id == ptts == 0
    return told == ptt and str(ptt_id) in on and (ptts == 1 or len(on) == 1)


def fits_air(line, answer, on, ptt):
    """Whether an accepted call fits the air that `air` answers behind it: reports tell it; a packet's audio is sent if its seat is
    one of its seats; no seat just opened or closed is, and nobody in a fault."""
    kind, *words = line.split()
    if kind in ("open", "close"):
        return words[0] not in on
    if kind == "tick" and seat_sets(answer)[0] & on:
        return False
    if kind == "transmitter":
        return words[0] == "healthy" or not on
    if kind == "packet" and bytes.fromhex(words[1])[1] == AUDIO:
        return answer.endswith(" audio=-") == (words[0] not in on)
    return all(tells_air(report, on, ptt) for report in reports_in(line, answer).values())


def hold_air(lines, first):
    """02, request 5. Answers behind how many calls the air was another than before."""
    given = answers([part for line in lines for part in (line, "air")])
    before, changes = "ok on=- ptt=0", 0
    for i, (answer, shown) in enumerate(zip(given[::2], given[1::2], strict=True)):
        if answer != first[i]:
            fail("`air`, asked before it, changed the answer", lines, i)
        accepted = answer.startswith("ok")
        if shown != before and (not accepted or lines[i].startswith(("report ", "totals "))):
            fail(f"a refused call, a report or totals changed what `air` answers, {before} to {shown}", lines, i)
        if accepted and not fits_air(lines[i], answer, *seats_and_type(shown)):
            fail(f"`air` behind it answers what doesn't fit it, {shown},", lines, i)
        changes += shown != before
        before = shown
    return changes


# ---- Demand 3

def live_report(mixed, alone):
    """A live seat's report in the session with lesson calls and in the one without: while no live keying is above Test they may
    differ in PTT type, ptt-id and PTTS."""
    return mixed == alone or alone[16] >> 5 in (0, TEST) and blotted(mixed) == blotted(alone)


def allowed(line, mixed, alone):
    """What the session with lesson calls may answer where the one without them answers `alone`."""
    kind = line.split()[0]
    if mixed == alone:
        return True
    if not (mixed.startswith("ok ") and alone.startswith("ok ")):
        return False
    if kind == "packet":
        return keys_test(line.split()[2]) and mixed.rpartition(" audio=")[0] == alone.rpartition(" audio=")[0]
    if kind == "tick" and live_seats(mixed) != live_seats(alone):
        return False
    if kind in ("report", "tick"):
        # 02: "each live seat's record is compared by itself"; lesson seats' reports are in the first session alone
        told = reports_in(line, mixed)
        return all(live_report(told[seat], report) for seat, report in reports_in(line, alone).items())
    if kind == "air":
        # a lesson keying is Test: it is on the air where no live keying is above Test, and puts no live seat there
        (on_mixed, top_mixed), (on_alone, top_alone) = map(seats_and_type, (mixed, alone))
        return top_alone in (0, TEST) and top_mixed == TEST and on_mixed - set(LESSONS) <= on_alone
    return False


# ---- A session

def soak(count, seed):
    lines, without = session(count, seed)
    first = answers(lines)
    if len(first) != len(lines):
        sys.exit(f"FAIL: {len(lines)} calls, {len(first)} answers")
    for i, answer in enumerate(first):
        if answer.startswith("error:"):
            fail("an error for a well-formed line", lines, i)
    if answers(lines) != first:
        sys.exit("FAIL: the same session answered otherwise")
    kept = [i for i, answer in enumerate(first) if not answer.startswith("refused ")]
    again = answers([lines[i] for i in kept])
    for i, answer in zip(kept, again):
        if answer != first[i]:
            fail("a refused call before it changed the answer", lines, i)
    for i, answer in enumerate(answers([without.get(i, line) for i, line in enumerate(lines)])):
        if answer != first[i]:
            fail("a type 4 item in it or before it changed the answer", lines, i)
    told = hold_qualities(lines, first)
    changes = hold_air(lines, first)
    sides = hold_sides(lines, first)
    missing = hold_totals(lines, first)
    sent = hold_reports(lines, first)
    hold_singles(lines, first)
    ticks, merged, ran = hold_ticks(lines, first, seed)
    live = [i for i, line in enumerate(lines) if not names_a_lesson(line)]
    alone = answers([lines[i] for i in live])
    for i, answer in zip(live, alone):
        if not allowed(lines[i], first[i], answer):
            fail("a lesson call before it changed what a live seat is told", lines, i)
    differing = sum(first[i] != answer for i, answer in zip(live, alone))
    refused = len(first) - len(kept)
    print(f"seed {seed}: {len(lines)} calls, {refused} refused; {len(without)} type 4 items left out; {told} reports with a quality; {changes} calls changed the air, {sides} the side; {missing} packets missing; "
          f"{sent} reports sent by ticks; {ticks} ticks made two, {merged} with a seat due in the first and closed in the second, {ran} sequence numbers one further; "
          f"{len(lines) - len(live)} lesson calls left out, {differing} live answers differed as demand 3 allows")


def main():
    given = usage.arguments(__doc__)
    count = int(given[0]) if given else 20_000
    seeds = [int(given[1])] if len(given) > 1 else range(len(MODES))
    for seed in seeds:
        soak(count, seed)


if __name__ == "__main__":
    main()
