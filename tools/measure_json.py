#!/usr/bin/env python3
"""Times the reading of JSON. Run by hand:

    tools/measure_json.py [WORKLOAD [PARSER]]

The program benches/json_bench reads; where it is missing or older than the sources, it is proved and built first.
WORKLOAD is a program that prints lines of JSON, called as `python3 WORKLOAD script 1 100000`; without one
the lines are the sales of a shop that this script makes. PARSER is another program that reads the same
lines from its input, as `limit run parse`, and is timed beside it.

Printed are the bytes read in a second, line by line, and the time of an object of 40,000 short names beside
that of a list of as many texts of the same bytes. No number of a busy machine says much: compare within one
run.
"""
import json
import subprocess
import sys
import time

sys.dont_write_bytecode = True
import proved_copy

BENCH = proved_copy.program_of("json_bench")
NAMES = 40000
ROUNDS = 5


def sales(count):
    for i in range(count):
        moves = [{"source": "world", "destination": "customers:%d" % (i * 7919 % 1000), "amount": 1000 + i % 100, "asset": "USD/2"},
                 {"source": "customers:%d" % (i * 7919 % 1000), "destination": "shop:sales", "amount": 990, "asset": "USD/2"},
                 {"source": "customers:%d" % (i * 7919 % 1000), "destination": "shop:fees", "amount": 10 + i % 100, "asset": "USD/2"}]
        now = "2024-01-%02dT%02d:%02d:%02dZ" % (1 + i // 86400 % 28, i // 3600 % 24, i // 60 % 60, i % 60)
        line = {"caller": i % 4, "now": now, "method": "POST", "path": "/v2/default/transactions", "body": {"postings": moves}}
        yield json.dumps(line, separators=(",", ":")) + "\n"


def workload(program):
    if program is None:
        return "".join(sales(100000)).encode()
    return subprocess.run([sys.executable, program, "script", "1", "100000"], stdout=subprocess.PIPE, check=True).stdout


def names(step):
    return ["n%06d" % (i * step % 1000000) for i in range(NAMES)]


def nanoseconds(text):
    """The time of the fastest of some rounds, and what the program says of it."""
    best = None
    for _ in range(ROUNDS):
        said = subprocess.run([BENCH, "time"], input=text, stderr=subprocess.PIPE, check=True).stderr.decode().strip()
        found = int(said.split(": ")[1].split(" ns")[0])
        if best is None or found < best[0]:
            best = (found, said)
    return best


def main(words):
    if not proved_copy.is_built("json_bench"):
        sys.exit(1)
    text = workload(words[0] if words else None)
    print("lines:  %s" % nanoseconds(text)[1])
    for step in (1, 7919):
        objects = ("{" + ",".join('"%s":0' % name for name in names(step)) + "}").encode()
        texts = ("[" + ",".join('"%s00"' % name for name in names(step)) + "]").encode()
        one, other = nanoseconds(objects), nanoseconds(texts)
        print("object: %s\nlist:   %s\nratio:  %.2f" % (one[1], other[1], one[0] / other[0]))
    if len(words) > 1:
        best = None
        for _ in range(ROUNDS):
            start = time.monotonic()
            subprocess.run(words[1].split(), input=text, stdout=subprocess.DEVNULL, check=True)
            best = min(best or 1e9, time.monotonic() - start)
        print("beside: %s: %.0f MB/s, the start of the program and its input with it" % (words[1], len(text) / best / 1e6))


main(sys.argv[1:])
