#!/usr/bin/env python3
"""Compares the reader of JSON with a second one in plain Python. Run by hand:

    tools/compare_json.py FOLDER [SEEDS]

FOLDER has `jsontext.py`, whose `read_exactly(bytes)` gives a value or raises `Fault` with a `kind` and a
`place`, and `fuzz.py`, which prints lines of JSON, as `python3 fuzz.py SEED 300`. The reader is that of the program
benches/json_bench; where it is missing or older than the sources, it is proved and built first. The texts are those that
fuzz.py prints, fronts and changed bytes of them, and a list of texts that often go wrong.
"""
import json
import os
import random
import subprocess
import sys

sys.dont_write_bytecode = True
import proved_copy

BENCH = "json_bench"
SAMPLES = [b'{"a":[1,-2,{"b":"c"}],"d":null}', b'"\\u00e9\\ud83d\\ude00"', b'"\\ud83d"', b'"\\udc00"', b'"\\ud800\\u0041"',
           b'"\xc3\xa9"', b'"\xc3("', b'"\xed\xa0\x80"', b'"\xf4\x90\x80\x80"', b'"\xf0\x90\x80\x80"', b'"\xe0\x80\x80"',
           b" 1 ", b"1 2", b"-", b"-a", b"1e5", b"1.", b"0x", b"tru", b"nul1", b"[1,]", b'{"a":1,}', b'{"a" 1}',
           b'{"a":1,"\\u0061":2}', b"[" * 64 + b"]" * 64, b"[" * 65, b"9" * 50, b"-" + b"9" * 50, b"9" * 50 + b".",
           b"\xef\xbb\xbf1", b"NaN", b'"\x01"', b'"\x7f"', b'"\\x"', b"\x0c1", b"-0", b"01", b"[1.0]", b"",
           b"170141183460469231731687303715884105727", b"170141183460469231731687303715884105728",
           b"-170141183460469231731687303715884105728", b"-170141183460469231731687303715884105729"]


def texts(folder, seeds):
    found = list(SAMPLES)
    for count in (8, 9, 10, 64, 300, 5000):
        names = ['"m%d":%d' % (i * 7 % count, i) for i in range(count)]
        if count % 7:
            found.append(("{" + ",".join(names) + "}").encode())
        found.append(("{" + ",".join(names) + ',"m0":1}').encode())
    for seed in range(seeds):
        printed = subprocess.run([sys.executable, os.path.join(folder, "fuzz.py"), str(seed), "300"], stdout=subprocess.PIPE, check=True).stdout
        chance = random.Random(seed)
        for line in printed.split(b"\n"):
            found.append(line)
            if line:
                found.append(line[:chance.randrange(len(line))])
                place = chance.randrange(len(line))
                found.append(line[:place] + bytes([chance.choice(b'"\\{}[],:0e.-\x80\xc3 u')]) + line[place + 1:])
    return [text for text in found if b"\n" not in text]


def expected(jsontext, text):
    try:
        return ("value", jsontext.read_exactly(text))
    except jsontext.Fault as fault:
        return ("fault", "%s %d" % (fault.kind, fault.place))


def answer(line):
    if line[:1] in (b"s", b"r") or line[:4] in (b"not ", b"too "):
        return ("fault", line.decode())
    return ("value", json.loads(line))


def main(words):
    if not words or not os.path.exists(os.path.join(words[0], "jsontext.py")):
        print("skipped: name the folder that has jsontext.py and fuzz.py")
        return 0
    if not proved_copy.is_built(BENCH):
        return 1
    sys.path.insert(0, words[0])
    import jsontext
    cases = texts(words[0], int(words[1]) if len(words) > 1 else 8)
    given = subprocess.run([proved_copy.program_of(BENCH)], input=b"\n".join(cases) + b"\n", stdout=subprocess.PIPE, check=True).stdout.split(b"\n")
    differ = 0
    for text, line in zip(cases, given):
        want, got = expected(jsontext, text), answer(line)
        if want != got or json.dumps(want) != json.dumps(got):
            differ += 1
            if differ < 20:
                print("%r: expected %r, got %r" % (text[:200], want, got))
    print("%d texts, %d of them faults, %d differ" % (len(cases), sum(expected(jsontext, text)[0] == "fault" for text in cases), differ))
    return 1 if differ or len(given) != len(cases) + 1 else 0


sys.exit(main(sys.argv[1:]))
