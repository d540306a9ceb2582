#!/usr/bin/env python3
"""Compares `ledgerd run` with a second program in plain Python, byte for byte. The gate calls it after `rt ci`:

    tools/compare_runs.py [FOLDER] [SCRIPTS]

FOLDER, or the environment's LEDGERD_SECOND, has `script.py`, whose `run(bytes, log)` gives what a script's run writes,
`fuzz.py`, which prints random scripts, as `python3 fuzz.py SEED 100`, and `rows_test.py` with worked examples. Without
the folder nothing is compared. SCRIPTS says how many random scripts there are, 300 where it is absent.

Lines of requests that aren't built yet are left out of each script: imports, lists of accounts and of ledgers,
and reads of transactions, volumes, sums and counts.
"""
import json
import os
import re
import subprocess
import sys
import urllib.parse

TOP = os.path.join(os.path.dirname(os.path.abspath(__file__)), "..")
PROGRAM = os.path.join(TOP, "bin", "ledgerd")
READS = re.compile(r"/v2/[^/]+(/logs|/accounts/[^/]+)?")
LINES = 100
SHOWN = 10


def is_left_out(line):
    """Whether a line asks for what isn't built."""
    try:
        members = json.loads(line)
    except ValueError:
        return False
    if not isinstance(members, dict):
        return False
    path = members.get("path")
    path = urllib.parse.unquote(path.split("?")[0]) if isinstance(path, str) else ""
    if members.get("method") == "GET":
        return not READS.fullmatch(path)
    return path.endswith("/logs/import")


def without_left_out(text):
    return b"".join(line + b"\n" for line in text.split(b"\n") if line and not is_left_out(line))


def worked_examples(rows_test):
    """The lines that each worked example sends to each of its ledgers, as scripts."""
    products = []
    begin = rows_test.Product.__init__

    def noted(self, *words):
        begin(self, *words)
        products.append(self)

    rows_test.Product.__init__ = noted
    found = []
    for name, example in rows_test.ROWS:
        del products[:]
        example()
        for count, product in enumerate(products):
            text = "".join(line + "\n" for line in product.inputs).encode()
            found.append(("example %s, script %d" % (name, count + 1), text))
    return found


def random_scripts(folder, count):
    for seed in range(count):
        words = [sys.executable, os.path.join(folder, "fuzz.py"), str(seed), str(LINES)]
        yield "seed %d" % seed, subprocess.run(words, stdout=subprocess.PIPE, check=True).stdout


def first_difference(expected, given):
    pairs = zip(expected.split(b"\n"), given.split(b"\n"))
    for number, (want, got) in enumerate(pairs):
        if want != got:
            return "line %d of the output:\n  expected %r\n  got      %r" % (number + 1, want[:600], got[:600])
    return "one output is the front of the other: %d and %d bytes" % (len(expected), len(given))


def main(words):
    folder = words[0] if words else os.environ.get("LEDGERD_SECOND", os.path.join(TOP, "..", "shared", "oracle"))
    if not os.path.exists(os.path.join(folder, "script.py")):
        print("compare_runs: skipped, there is no second program to compare with")
        return 0
    sys.path.insert(0, folder)
    import rows_test
    import script
    count = int(words[1]) if len(words) > 1 else 300
    compared = lines = differ = 0
    for scripts in (worked_examples(rows_test), random_scripts(folder, count)):
        for name, text in scripts:
            text = without_left_out(text)
            expected = script.run(text, script.IndexedLog)
            done = subprocess.run([PROGRAM, "run"], input=text, stdout=subprocess.PIPE)
            compared += 1
            lines += text.count(b"\n")
            if done.returncode != 0 or done.stdout != expected:
                differ += 1
                if differ <= SHOWN:
                    print("%s: status %d, %s" % (name, done.returncode, first_difference(expected, done.stdout)))
    print("compare_runs: %d scripts with %d lines, %d differ" % (compared, lines, differ))
    return 1 if differ or compared < count else 0


sys.exit(main(sys.argv[1:]))
