#!/usr/bin/env python3
"""Makes the sessions on which the console is run, and the answer expected to each line.

  tests/sessions.py [DIR]    writes DIR/stdin and DIR/stdout; without DIR those of crates/console

Sessions stand end to end; each has a title and begins with its set-up. The answers are worked out from 01 and 02 by
tests/model.py, which shares no code with the library. What a line is there to show is also written here by hand
and asserted: a slip in the model shows when the sessions are made. tests/driven.py has what is too long for this file.
"""

import pathlib

import console
import model
import usage
import written
from sessions_air import air, time
from sessions_ddc import ddc_items
from sessions_kept import kept_air
from sessions_kinds import kinds
from sessions_levels import levels
from sessions_lines import lines
from sessions_packets import packets
from sessions_printed import printed_examples, traps
from sessions_refusals import refusals
from sessions_sending import sending
from sessions_ticks import merged_ticks
from sessions_totals import totals
from talk import Sessions

ROOT = pathlib.Path(__file__).resolve().parent.parent
CRATE = ROOT / "crates" / "console"


def writers(s):
    """The writes on which crates/write_each runs the writers; here each value goes through a word. Run by driven.py."""
    s.session("the writers by themselves")
    for write in written.writes:
        if write.room <= 512 and write.ext == 0x0167 and not write.other:
            s.say(as_line(write), "")


def as_line(write):
    m, f = write.message, write.message.field
    mss = "-" if f.side is None else f.side
    if write.direction == model.TX:
        values = [f.ptt, f.id, f.pm, f.ptts, "-" if f.climax is None else f.climax, mss]
    else:
        quality = "-" if f.sqi is None else "{}/{}".format(*f.sqi)
        values = [f.ptt, f.squ, f.id, f.pm, f.ptts, f.sct, quality, mss]
    audio = console.hexed(written.sound(write.audio))
    words = ["write", write.direction.lower(), m.sequence, m.timestamp, m.ssrc, *values, audio, write.room]
    return " ".join(map(str, words))


def main():
    given = usage.arguments(__doc__)
    folder = pathlib.Path(given[0]) if given else CRATE
    folder.mkdir(parents=True, exist_ok=True)
    s = Sessions()
    for part in (printed_examples, traps, refusals, time, air, packets, ddc_items, levels, merged_ticks, kept_air, sending, kinds, totals, lines):
        part(s)
    s.save(folder)
    print(f"{s.sessions} sessions, {len(s.lines)} lines, {len(s.answers)} answers; written to {folder}")


if __name__ == "__main__":
    main()
