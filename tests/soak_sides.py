"""Which side is in use and which is told, by the kind of radio, for soak.py: 02, request 10."""

from soak_told import fail, reports_in

# 01: type 5, length 1; "high bit 0 main, 1 standby"
ITEM = {"main": b"\x51\x00", "standby": b"\x51\x80"}


def item_told(report):
    """The main/standby item of a report, no byte where there is none. It is the last, behind SQI where SQU is 1."""
    words = report[: 16 + 4 * report[15]]
    at = 20 if report[16] & 0x10 else 18
    return words[at : at + 2].removeprefix(b"\x00\x00")


def hold_sides(lines, first):
    """A side event is refused exactly on a single radio. Items move a pair alone: elsewhere an accepted packet answers the side of the
    last event. Reports tell a pair's side, of a shared radio 0, of a single one nothing. Answers how often the side was another."""
    kind = lines[0].split()[3]
    in_use, changes = "main", 0
    for i, (line, answer) in enumerate(zip(lines, first)):
        call, *words = line.split()
        now = in_use
        if call == "side":
            if (answer == "ok") != (kind != "single"):
                fail("a side event refused, or accepted on a single radio,", lines, i)
            now = words[0] if answer == "ok" else in_use
        if call == "packet" and answer.startswith("ok "):
            now = answer.split("side=")[1].split()[0]
            if now != in_use and kind != "pair":
                fail("an item moved the side", lines, i)
        for report in reports_in(line, answer).values():
            if item_told(report) != {"single": b"", "pair": ITEM[in_use], "shared": ITEM["main"]}[kind]:
                fail(f"another side told than a {kind} radio tells with {in_use} in use", lines, i)
        changes += now != in_use
        in_use = now
    return changes
