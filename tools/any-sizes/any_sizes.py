#!/usr/bin/env python3
"""any_sizes.py SABER [RUNS] [SEED]: random queries over random rows, each in tasks of several sizes, on several rings, by several threads.

Output, note and status of each run must be those of tasks of one row without threads; and of up to eight queries in one run of `many` those of a run of
each alone. Prints each that isn't, with its files, and the count.
"""
import os, random, subprocess, sys, tempfile
SIZES, SLIDES = [1, 2, 3, 5, 8, 17, 64, 100, 300], [1, 2, 3, 5, 7, 16, 64, 100, 301]

def rows(n, most):
    """n lines of a time that doesn't fall, a key and a number; sometimes one that is refused"""
    time, lines = 0, []
    for _ in range(n):
        time += random.choice([0, 0, 1, 1, 2, random.choice([0, 5]), 1000 if random.random() < 0.005 else 0])
        lines.append(f"{time},{random.randint(0, 5)},{random.randint(-most, most)}")
    if n and random.random() < 0.1:
        lines[random.randrange(n)] = "0,x,1"
    return "".join(line + "\n" for line in lines)

def window():
    return f"[{random.choice(['ROWS', 'RANGE'])} {random.choice(SIZES)} SLIDE {random.choice(SLIDES)}]"

def query():
    """a query, and whether it joins two streams"""
    kind = random.choice(["group", "group", "group", "select", "join"])
    where = random.choice(["", " WHERE v > 0", " WHERE v > 49", " WHERE g = 2 OR v < -10"])
    if kind == "group":
        items = random.choice(["COUNT(*)", "g, SUM(v), MIN(v), MAX(v)", "g, COUNT(*), MIN(v*g-1)", "SUM(v), MAX(v)"])
        return f"STREAM S(t,g,v); SELECT {items} FROM S {window()}{where}{' GROUP BY g' if 'g,' in items else ''}\n", False
    if kind == "select":
        return f"STREAM S(t,g,v); SELECT g, v*2-1 FROM S{where}\n", False
    of = random.choice(["ROWS", "RANGE"])
    slide, left, right = random.choice(SLIDES[2:]), random.choice(SIZES[:6]), random.choice(SIZES[:6])
    return f"STREAM A(t,g,v); STREAM B(u,h,w); SELECT v, w FROM A [{of} {left} SLIDE {slide}], B [{of} {right} SLIDE {slide}] WHERE g = h\n", True

def together(saber, folder, left):
    """up to eight queries of one stream in one run, and each in one of its own: whether all is the same"""
    sizes = ["--task", str(random.choice([1, 3, 20, 700])), "--ring", str(random.choice([1, 2, 64])), "--threads", random.choice("01238"), *random.choice([[], ["--final"]])]
    names, given = [], []
    for _ in range(random.randint(1, 8)):
        text, joins = query()
        name = f"{folder}/q{len(names)}"
        with open(name, "w") as it:
            it.write(text)
        alone = subprocess.run([saber, "run", name, left, *sizes], capture_output=True)
        if not joins and alone.returncode != 3:
            names.append(name)
            given.append(alone)
    if not names:
        return True
    got = subprocess.run([saber, "many", left, *names, *sizes], capture_output=True)
    notes = b"".join(it.stderr.replace(b"saber: ", b"saber: query %d: " % number) for number, it in enumerate(given, 1))
    status = next((it.returncode for it in given if it.returncode), 0)
    outs = [open(f"{name}.out", "rb").read() for name in names]
    if (got.stdout, got.stderr, got.returncode) == (b"", notes, status) and outs == [it.stdout for it in given]:
        return True
    kept = tempfile.mkdtemp(prefix="any-sizes-")
    os.system(f"cp {left} {' '.join(names)} {kept}")
    print(f"differs: many {' '.join(sizes)}, files in {kept}")
    return False

def main(saber, count, seed):
    random.seed(seed)
    bad = runs = 0
    with tempfile.TemporaryDirectory() as folder:
        asked, left, right = (f"{folder}/{name}" for name in ("query", "left", "right"))
        for _ in range(count):
            text, joins = query()
            for name, content in ((asked, text), (left, rows(random.choice([0, 1, 5, 37, 200, 1000, 3000]), 50)), (right, rows(random.choice([0, 30, 400]), 50))):
                with open(name, "w") as it:
                    it.write(content)
            runs += 1
            bad += not together(saber, folder, left)
            words = [saber, "run", asked, left, *([right] if joins else []), *random.choice([[], ["--final"]])]
            run = lambda *more: subprocess.run([*words, *more], capture_output=True)
            given = run("--task", "1", "--threads", "0", "--ring", "1024")
            for task in (random.randint(1, 20), random.randint(20, 700), random.choice([1024, 4096, 65536])):
                for threads in random.sample("0123", 2):
                    runs += 1
                    got = run("--task", str(task), "--threads", threads, "--ring", "1024")
                    if given.returncode != 7 and (got.stdout, got.stderr, got.returncode) != (given.stdout, given.stderr, given.returncode):
                        bad += 1
                        kept = tempfile.mkdtemp(prefix="any-sizes-")
                        os.system(f"cp {asked} {left} {right} {kept}")
                        print(f"differs: {text.strip()} --task {task} --threads {threads}, files in {kept}")
    print(f"{runs} runs, {bad} wrong")
    return bad

sys.exit(1 if main(sys.argv[1], int(sys.argv[2]) if len(sys.argv) > 2 else 250, int(sys.argv[3]) if len(sys.argv) > 3 else 1) else 0)
