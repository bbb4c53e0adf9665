#!/usr/bin/env python3
"""dearest.py FOLDER [N]: the N functions (20) that took longest in a check of one process, by the times of the files that it kept.

    JOBS=1 tools/over-gate/check.py /work/gate . saber_ring --incremental out/incremental
    tools/over-gate/dearest.py crates/saber_ring/out/incremental
Seconds of the clock, and the stages behind each: `Lts` and `Tie` are what a body means, and `Proof` is the search of the goals that
have no answer. Functions that an earlier check left there count too.
"""
import collections, os, re, sys
STAGE = re.compile(r"Rattle-\w+-(?:proofs|specs)\.(.*?)\.(Lts|Tie|Proof|Answers|Goals|Code|Met|Kinds|Carried|Named|Layout|Reads|Given|Statement)\b")
folder, count = sys.argv[1], int(sys.argv[2]) if len(sys.argv) > 2 else 20
files = sorted((os.stat(os.path.join(at, it)).st_mtime_ns / 1e9, it) for at, _, names in os.walk(folder) for it in names)
took, stages, before = collections.Counter(), collections.defaultdict(collections.Counter), files[0][0]
for time, it in files:
    found = STAGE.match(it)
    name, stage = found.groups() if found else (it.split(".decls")[0].removesuffix(".oantt"), "file")
    took[name] += time - before
    stages[name][stage] += time - before
    before = time
print(f"{sum(took.values()):.0f} s")
for name, seconds in took.most_common(count):
    print(f"{seconds:6.1f} {name}  " + " ".join(f"{stage} {of:.1f}" for stage, of in stages[name].most_common(4)))
