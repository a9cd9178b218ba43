#!/usr/bin/env python3
"""Measures what a report costs, and beside it an accepted packet, a tick and a tick with eight reports. Not part of the gate.

  tests/report_speed.py [CHECKOUT...]    of this checkout, or of those given, which are run by turns to be compared

Eight seats are open, seat 1 keys Normal and seat 7 Test, and a signal is received. Reports go to each seat in turn and
carry no audio; the packets are seat 1's, each the same but for its sequence number; a tick is 1 ms and closes no seat, and in
one of a thousand the seats are due. One with eight reports is 1000 ms, from the same bench each time.
The bench lies in memory between the calls: its copy into a call and back is part of what is measured.

The library is proved and built with the Rattle kit (`rt` on the PATH), with the calls as a static library over it, in a
temporary folder. The loops around the calls are C code, compiled apart, so that the compiler can move nothing out of them
and drop nothing. Each run is a process of its own, since one process can be slower than the next from its start to its end;
its time is that of the processor. Compare two checkouts in one run of this script: once both are proved on this machine it
takes about a minute for each. Figures in docs/changes are of the older kit, and are not to be compared with its.
"""

import pathlib
import platform
import shutil
import statistics
import subprocess
import sys
import tempfile

import usage

ROOT = pathlib.Path(__file__).resolve().parent.parent
MACHINE = "x86_64"
RUNS = 25

# Each call of the library stands in one place alone, so that the compiler treats the calls of every checkout alike.
CALLS = """#![tactic(auto)]

use bench::Bench;
use bench::CallType;
use bench::Kind;
use bench::Request;
use bench::Setup;
use bench::kind_code;

#[unsafe(no_mangle)]
pub extern "C" fn open_all(held: &mut Bench) {
    let setup = Setup {
        lesson: [false, false, false, false, false, false, true, true],
        ext: 0x0167,
        kind: kind_code(Kind::Pair),
        equal_summation: false,
        coupling_summation: false,
    };
    let mut b = Bench::fresh(setup);
    for n in 1..=8u8 {
        let request = Request { call: CallType::TxRx, period: 1000, multiplier: 50, ssrc: n as u32, sequence: 0 };
        let opened = bench::open(b, n, request);
        b = opened.bench;
    }
    *held = bench::received(b, 1, -850);
}

// The length of the report, 0 if it is refused.
#[unsafe(no_mangle)]
pub extern "C" fn one_report(held: &mut Bench, n: u8, timestamp: u32, out: &mut [u8; 24]) -> usize {
    let silence = [0u8; 0];
    let reported = bench::report(*held, n, timestamp, &silence, out);
    *held = reported.bench;
    reported.answer.unwrap_or(0)
}

// 1, and 0 if it is refused.
#[unsafe(no_mangle)]
pub extern "C" fn one_packet(held: &mut Bench, n: u8, data: &[u8; 20]) -> u32 {
    let heard = bench::packet(*held, n, data);
    *held = heard.bench;
    heard.answer.is_ok() as u32
}

// 1 and the bytes used, 0 if it is refused.
#[unsafe(no_mangle)]
pub extern "C" fn one_tick(held: &Bench, after: &mut Bench, ms: u16, timestamp: u32, out: &mut [u8; 208]) -> usize {
    let ticked = bench::tick(*held, ms, timestamp, out);
    *after = ticked.bench;
    match ticked.answer {
        Ok(used) => used.saturating_add(1),
        Err(_) => 0,
    }
}
"""

# Prints the ns of a report, of a packet, of a tick and of one with eight reports; fails where a call was refused or the last report
# of either kind is a wrong one.
LOOPS = """
typedef unsigned char byte;
void open_all(void *bench);
unsigned long one_report(void *bench, byte seat, unsigned timestamp, byte *out);
unsigned one_packet(void *bench, byte seat, const byte *data);
unsigned long one_tick(const void *bench, void *after, unsigned short ms, unsigned timestamp, byte *out);
long clock(void);  // in microseconds
int printf(const char *format, ...);

enum { REPORTS = 200000, PACKETS = 200000, TICKS = 40000, SENDS = 40000 };  // silence closes the seats after 50000 ticks
enum { SIZE = 24, ALL = 8 * (2 + SIZE), PERIOD = 1000 };

static unsigned bench[1024], other[1024];  // a bench takes some 100 of these
static byte out[SIZE], sent[ALL];
static byte normal_1[20] = {0x90, 0x7B, 0, 0, 0, 0, 0, 0, 0, 0, 0, 1, 0x01, 0x67, 0, 1, 0x20, 0x40, 0, 0};
static byte test_7[20] = {0x90, 0x7B, 0, 0, 0, 0, 0, 0, 0, 0, 0, 7, 0x01, 0x67, 0, 1, 0xA1, 0xC0, 0, 0};

int main(void) {
    unsigned accepted = 0, written = 0, ticked = 0, sending = 0;
    open_all(bench);
    accepted += one_packet(bench, 7, test_7);
    long start = clock();
    for (unsigned i = 0; i < PACKETS; i++) {
        normal_1[2] = i >> 8;
        normal_1[3] = i;
        accepted += one_packet(bench, 1, normal_1);
    }
    long heard = clock();
    for (unsigned i = 0; i < REPORTS; i++)
        written += one_report(bench, 1 + i % 8, i, out);
    long told = clock();
    for (unsigned i = 0; i < TICKS; i += 2) {
        ticked += one_tick(bench, other, 1, i, sent);
        ticked += one_tick(other, bench, 1, i, sent);
    }
    long passed = clock();
    for (unsigned i = 0; i < SENDS; i++)
        sending += one_tick(bench, other, PERIOD, i, sent);
    long end = clock();
    if (accepted != 1 + PACKETS || written != SIZE * REPORTS || ticked != TICKS + ALL * (TICKS / PERIOD) || sending != SENDS * (1 + ALL))
        return 1;
    const byte *last = sent + ALL - SIZE;
    if (out[16] != 0x30 || out[17] != 0x41 || last[16] != 0x30 || last[17] != 0x41)  // Normal, SQU, id 1, X
        return 1;
    printf("%f %f ", 1e3 * (told - heard) / REPORTS, 1e3 * (heard - start) / PACKETS);
    printf("%f %f", 1e3 * (passed - told) / TICKS, 1e3 * (end - passed) / SENDS);
    return 0;
}
"""


def stop(why):
    sys.exit(f"{sys.argv[0]}: {why}")


def wrong(why):
    print(f"{sys.argv[0]}: {why}\nusage: tests/report_speed.py [CHECKOUT...]", file=sys.stderr)
    sys.exit(2)


def run(why, *words, where=None):
    ran = subprocess.run([str(word) for word in words], capture_output=True, text=True, cwd=where)
    if ran.returncode != 0:
        stop(f"{why}\n{ran.stdout}{ran.stderr}".strip())
    return ran.stdout


def compiled(root, folder):
    """The program over the library of a checkout, made in a folder."""
    crates, loops, program = folder / "crates", folder / "loops.c", folder / "program"

    def left_out(within, names):  # of a crate what rt makes, and its edits; a module may be called out too
        return {"out", "must-fail"} & set(names) if pathlib.Path(within).parent == root / "crates" else set()

    shutil.copytree(root / "crates", crates, ignore=left_out)
    (folder / "crates.txt").write_text((root / "crates.txt").read_text() + "\ncalls staticlib: bench writer\n")
    (crates / "calls/src").mkdir(parents=True)
    (crates / "calls/src/lib.rt").write_text(CALLS)
    loops.write_text(LOOPS)
    run(f"{root} is not proved and built; `rt check bench` there says why", "rt", "lib", where=crates / "calls")
    run("the loops are not compiled and linked", "cc", "-O3", "-o", program, loops, crates / "calls/out/libcalls.a")
    return [program]


def measured(roots):
    """The runs of each checkout: the ns of each call in each."""
    if platform.machine() != MACHINE:
        stop(f"programs are for {MACHINE}")
    for word in ("rt", "cc"):
        shutil.which(word) or stop(f"{word} is not on the PATH")
    with tempfile.TemporaryDirectory() as name:
        programs = []
        for i, root in enumerate(roots):
            folder = pathlib.Path(name) / str(i)
            folder.mkdir()
            programs.append(compiled(root, folder))
        runs = [[run("the calls were not answered as they should be", *program).split() for program in programs] for _ in range(RUNS)]
    return zip(*runs)


def main():
    roots = [pathlib.Path(word).resolve() for word in usage.arguments(__doc__)] or [ROOT]
    for root in roots:
        if not (root / "crates.txt").is_file():
            wrong(f"{root} is no checkout: it has no crates.txt")
    for root, runs in zip(roots, measured(roots)):
        if len(roots) > 1:
            print(f"{root}:")
        for call, told in zip(("report", "packet", "tick", "tick with eight reports"), zip(*runs), strict=True):
            times = [float(word) for word in told]
            best, middle = min(times), statistics.median(times)
            print(f"{call}: {1000 / best:.1f} million a second (best of {RUNS}: {best:.0f} ns, middle {middle:.0f} ns)")


if __name__ == "__main__":
    main()
