#!/usr/bin/env python3
"""Tests of `saber rows`, `saber answers` and `saber tick` (tools/rows).

SABER_PROGRAM is the program; what needs it is passed over where it is not there. rows.cases has what fits a page; here
stand files that are generated, answers beside those of sqlite3, live pipes, and the blocks of three documents.
"""
import csv
import io
import os
import pty
import random
import re
import shutil
import sqlite3
import subprocess
import tempfile
import time
import unittest
from concurrent.futures import ThreadPoolExecutor
from datetime import datetime, timedelta, timezone

HERE = os.path.dirname(os.path.abspath(__file__))
TOP = os.path.dirname(os.path.dirname(HERE))
PROGRAM = os.path.abspath(os.environ.get("SABER_PROGRAM") or os.path.join(TOP, "crates", "saber", "out", "saber"))
THERE = os.access(PROGRAM, os.X_OK)
WRAPPER = f"""#!/bin/sh
case "$1" in
rows | answers | tick) exec python3 -S '{TOP}/tools/rows/rows.py' "$@" ;;
*) exec '{PROGRAM}' "$@" ;;
esac
"""
needs_program = unittest.skipUnless(THERE, f"no program at {PROGRAM}")


class Folder(unittest.TestCase):
    """A test in a folder of its own, where `saber` is on PATH."""

    maxDiff = 4000

    def setUp(self):
        self.folder = tempfile.mkdtemp(prefix="saber-rows-")
        self.addCleanup(shutil.rmtree, self.folder)
        os.mkdir(os.path.join(self.folder, "bin"))
        self.write("bin/saber", WRAPPER)
        os.chmod(os.path.join(self.folder, "bin", "saber"), 0o755)
        path = os.path.join(self.folder, "bin") + os.pathsep + os.environ["PATH"]
        self.environment = os.environ | {"PATH": path, "SABER_PROGRAM": PROGRAM, "COLUMNS": "80"}

    def write(self, name, content):
        """A file of this folder, of text or of bytes."""
        with open(os.path.join(self.folder, name), "wb") as file:
            file.write(content if isinstance(content, bytes) else content.encode("utf-8"))

    def read(self, name):
        """What a file of this folder has."""
        with open(os.path.join(self.folder, name), "rb") as file:
            return file.read()

    def shell(self, line, folder="."):
        """What comes of a line of bash."""
        return subprocess.run(["bash", "-c", line], cwd=os.path.join(self.folder, folder), env=self.environment,
                              capture_output=True, check=False, timeout=120)

    def answer(self, line):
        """The text of a line of bash that has to end well."""
        ran = self.shell("set -o pipefail; " + line)
        self.assertEqual((ran.returncode, ran.stderr.decode()), (0, ""), line)
        return ran.stdout.decode("utf-8", "surrogateescape")


def fields_of(path):
    """The fields of a file of cases: what stands before the colon, and its text."""
    found, empty = [], 0
    with open(path, encoding="utf-8") as file:
        for line in file.read().split("\n"):
            if line.startswith("  "):
                found[-1][1].extend([""] * empty + [line[2:]])
                empty = 0
            elif not line:
                empty += 1
            elif not line.startswith("#"):
                head, _, rest = line.partition(":")
                found.append((head, [rest.strip()] if rest.strip() else []))
                empty = 0
    return [(head, "".join(line + "\n" for line in lines).removesuffix("\\\n")) for head, lines in found]


def cases_of(path):
    """The cases of a file, each with its fields and those of its section."""
    section, found = {}, []
    for head, text in fields_of(path):
        if head == "section":
            section, into = {}, None
            into = section
        elif head == "case":
            into = {"case": text.strip()}
            found.append((section, into))
        else:
            into[head] = text
    return [above | own for above, own in found]


def content(text):
    """A file's bytes, as a case writes them."""
    signs = {"r": b"\r", "t": b"\t"}
    return re.sub(rb"\\(?:x([0-9a-f]{2})|([rt]))", lambda it: bytes([int(it[1], 16)]) if it[1] else signs[it[2].decode()],
                  text.encode("utf-8"))


class Cases(Folder):
    """The cases of rows.cases."""

    def test_cases(self):
        """Each in a folder of its own, two at a time."""
        cases = cases_of(os.path.join(HERE, "rows.cases"))
        with ThreadPoolExecutor(2) as pool:
            for case, found in list(zip(cases, pool.map(self.tried, range(len(cases)), cases))):
                with self.subTest(case["case"]):
                    if found is None:
                        self.skipTest(f"no program at {PROGRAM}")
                    wanted = {"out": "", "note": "", "status": "0\n"} | case
                    self.assertEqual(found, {head: wanted[head] for head in found})

    def tried(self, number, case):
        """What comes of a case, under the heads that it has for it."""
        if "needs" in case and not THERE:
            return None
        folder = f"case {number}"
        os.mkdir(os.path.join(self.folder, folder))
        for head, text in case.items():
            if head.startswith("file "):
                self.write(os.path.join(folder, head[5:]), content(text))
        ran = self.shell(case["words"], folder)
        found = {"out": ran.stdout.decode(), "note": ran.stderr.decode(), "status": f"{ran.returncode}\n"}
        for head in case:
            if head.startswith("after "):
                found[head] = self.text_of(os.path.join(folder, head[6:]))
        return found

    def text_of(self, name):
        """A file as a case writes it."""
        if not os.path.exists(os.path.join(self.folder, name)):
            return "no file"
        text = self.read(name).decode("utf-8", "backslashreplace")
        return text.replace("\r", "\\r").replace("\t", "\\t")


def iso(value, digits, random_):
    """A time as people may write it."""
    seconds, fraction = divmod(value, 10**digits)
    minutes = random_.choice([0, 0, 60, -330, 345])
    local = datetime(1970, 1, 1) + timedelta(seconds=seconds + 60 * minutes)
    text = local.isoformat(random_.choice("T "))
    text += f".{fraction:0{digits}}" if digits else ""
    return text + ("Z" if not minutes else f"{'-' if minutes < 0 else '+'}{abs(minutes) // 60:02}:{abs(minutes) % 60:02}")


class RoundTrips(Folder):
    """Rows of generated files, and the answer of all their columns."""

    def of_file(self, seed, delimiter, end, unit, digits):
        """A file, its FIELDS, and what its answer has to be."""
        random_ = random.Random(seed)
        texts = ["a", "b,c", 'd "e"', "f\ng", "", "é;\t|", " h ", "#", "\r\n", "i" * 300]
        file, wanted, value = io.StringIO(), [], 1796042096 * 10**digits
        write = csv.writer(file, delimiter=delimiter, lineterminator=end)
        write.writerow(["other", "a time", "wh", "text", "n"])
        for _ in range(300):
            value += random_.randrange(3 * 10**digits)
            number = random_.choice([random_.randrange(-10**6, 10**6), 2**63 - 1, -2**63, 0, -1])
            whole = random_.choice([random_.randrange(-9, 9), 2**63 - 1, -2**63])
            sign, size = ("-" if number < 0 else ""), abs(number)
            text = random_.choice(texts)
            decimal = f"{sign}{size // 1000}.{size % 1000:03}"
            write.writerow([random_.choice(texts), iso(value, digits, random_), decimal, text, whole])
            seconds, fraction = divmod(value, 10**digits)
            moment = (datetime(1970, 1, 1) + timedelta(seconds=seconds)).isoformat()
            wanted.append([moment + (f".{fraction:0{digits}}" if digits else "") + "Z", text, decimal, str(whole)])
        sign = {"\t": "tab"}.get(delimiter, delimiter)
        fields = f'delimiter {sign}\nt = "a time" time {unit}\nm = text text\nwh = wh scale 3\nn = n int\n'
        return random_.choice(["", "\ufeff"]) + file.getvalue(), fields, wanted

    @needs_program
    def test_round_trips(self):
        """Texts, zones, decimals below 0, line feeds in quotes, numbers at the borders of 64 bits."""
        self.write("q", "STREAM S(t, m, wh, n); SELECT t, m, wh, n FROM S")
        units = [("s", 0), ("ms", 3), ("us", 6), ("ns", 9)]
        for seed in range(12):
            delimiter, end, (unit, digits) = ",;\t|"[seed % 4], ["\n", "\r\n"][seed // 4 % 2], units[seed // 3]
            raw, fields, wanted = self.of_file(seed, delimiter, end, unit, digits)
            self.write("raw.csv", raw)
            self.write(f"f{seed}", fields)
            found = self.answer(f"saber rows f{seed} raw.csv | saber run q /dev/stdin | saber answers f{seed} q")
            with self.subTest(seed=seed):
                self.assertEqual(list(csv.reader(io.StringIO(found, newline="")))[1:], wanted)

    def test_cut_in_two(self):
        """A file that is cut in two gives the same rows and texts."""
        raw, fields, _ = self.of_file(5, ",", "\n", "ms", 3)
        records = list(csv.reader(io.StringIO(raw.removeprefix("\ufeff"), newline="")))
        for name in ("whole", "cut"):
            self.write(name, fields.replace("delimiter ,\n", ""))
        for name, some in (("a", records[1:]), ("b", records[1:150]), ("c", records[150:])):
            file = io.StringIO()
            csv.writer(file).writerows([records[0], *some])
            self.write(name, file.getvalue())
        whole, cut = self.answer("saber rows whole a"), self.answer("saber rows cut b; saber rows cut c")
        self.assertEqual(whole, cut)
        self.assertEqual(self.read("whole.texts"), self.read("cut.texts"))

    def test_side_by_side(self):
        """Two runs at once over one file of texts give no number twice."""
        for name in "ab":
            cells = [f"{number},x{(number * 7 + ord(name)) % 3000}\n" for number in range(6000)]
            self.write(name, "t,m\n" + "".join(cells))
        self.write("f", "t = t int\nm = m text\n")
        self.answer("saber rows f a >a.rows & saber rows f b >b.rows; wait")
        numbers = [line.split(",")[0] for line in self.read("f.texts").decode().splitlines()]
        self.assertEqual(numbers, [str(number) for number in range(1, 3001)])
        texts = {number: text for number, text in csv.reader(self.read("f.texts").decode().splitlines())}
        for name in "ab":
            raw = [line.split(",")[1] for line in self.read(name).decode().splitlines()[1:]]
            rows = [line.split(",")[1] for line in self.read(f"{name}.rows").decode().splitlines()]
            self.assertEqual([texts[number] for number in rows], raw)


class Live(Folder):
    """Pipes that stay open."""

    def begin(self, line):
        """A line of bash that runs, with pipes."""
        running = subprocess.Popen(["bash", "-c", line], cwd=self.folder, env=self.environment, stdin=subprocess.PIPE,
                                   stdout=subprocess.PIPE, stderr=subprocess.PIPE)
        self.addCleanup(lambda: [running.stdin.close(), running.stdout.close(), running.stderr.close(), running.wait(60)])
        return running

    def test_each_line_at_once(self):
        """A row comes before the next line does."""
        self.write("f", "t = t int\nm = m text\n")
        running = self.begin("exec saber rows f")
        running.stdin.write(b"t,m\n")
        for number in range(5):
            running.stdin.write(b'%d,"a\nb"\n' % number)
            running.stdin.flush()
            self.assertEqual(running.stdout.readline(), b"%d,1\n" % number)

    @needs_program
    def test_each_answer_at_once(self):
        """An answer comes with the row that closes its window, through rows, run and answers."""
        self.write("f", "t = t time s\nm = m text\n")
        self.write("q", "STREAM S(t, m); SELECT m, COUNT(*) FROM S [RANGE 10 SLIDE 10] GROUP BY m")
        running = self.begin("saber rows f | saber run q /dev/stdin --task 1 --threads 0 | saber answers f q --csv")
        running.stdin.write(b"t,m\n5,a\n")
        for number in range(1, 5):
            running.stdin.write(b"%d,a\n" % (10 * number + 5))
            running.stdin.flush()
            if number == 1:
                self.assertEqual(running.stdout.readline(), b"from,m,count\n")
            self.assertEqual(running.stdout.readline(), b"1970-01-01T00:00:%02dZ,a,1\n" % (10 * number - 10))

    @needs_program
    def test_in_a_terminal(self):
        """A table is written in a terminal, soon, while more may come."""
        self.write("f", "t = t time s\nn = n int\n")
        self.write("q", "STREAM S(t, n); SELECT SUM(n), COUNT(*) FROM S [RANGE 10 SLIDE 10]")
        ours, theirs = pty.openpty()
        self.addCleanup(os.close, ours)
        running = subprocess.Popen(["bin/saber", "answers", "f", "q"], cwd=self.folder, env=self.environment,
                                   stdin=subprocess.PIPE, stdout=theirs)
        os.close(theirs)
        self.addCleanup(lambda: [running.stdin.close(), running.wait(60)])
        for lines, wanted in ((b"0,5,2\n1,1234567,1\n", 3), (b"2,7,7\n", 1)):
            running.stdin.write(lines)
            running.stdin.flush()
            found = b""
            while found.count(b"\n") < wanted:
                found += os.read(ours, 1000)
        self.assertEqual(found.decode(), "1970-01-01T00:00:20Z        7      7        1.000\r\n")

    def test_nobody_reads(self):
        """A closed pipe ends quietly."""
        self.write("f", "t = t int\n")
        ran = self.shell("{ echo t; seq 1 300000; } | saber rows f | head -1; echo ${PIPESTATUS[1]}")
        self.assertEqual((ran.stdout, ran.stderr), (b"1\n0\n", b""))
        ran = self.shell("seq 1 300000 | saber tick 5s 1 | head -1; echo ${PIPESTATUS[1]}")
        self.assertEqual((ran.stdout, ran.stderr), (b"1\n0\n", b""))

    def test_what_was_right_before_is_written(self):
        """A refused line comes after all rows before it."""
        self.write("f", "t = t int\n")
        ran = self.shell("{ echo t; seq 1 100000; echo x; } | saber rows f | tail -1; echo ${PIPESTATUS[1]}")
        self.assertEqual(ran.stdout, b"100000\n4\n")
        self.assertEqual(ran.stderr, b"saber rows: standard input line 100002, column t: 'x' is no whole number\n")

    def test_tick(self):
        """A silent source gives rows of the clock's time, which never fall, and not within a row."""
        running = self.begin("exec saber tick 200ms 3")
        ahead = time.time_ns() // 10**6 + 10**9
        before = time.time_ns() // 10**6
        first = running.stdout.readline().decode().strip().split(",")
        self.assertEqual(first[1:], ["0", "0"])
        self.assertTrue(before - 1000 < int(first[0]) <= time.time_ns() // 10**6)
        running.stdin.write(b"%d,1,2\n7,8" % ahead)
        running.stdin.flush()
        line = running.stdout.readline()
        while line.endswith(b",0,0\n"):
            line = running.stdout.readline()
        self.assertEqual(line, b"%d,1,2\n" % ahead)
        self.assertEqual(running.stdout.readline(), b"%d,0,0\n" % ahead)
        running.stdin.write(b",9\n")
        running.stdin.close()
        rest = running.stdout.read()
        self.assertTrue(rest.endswith(b"7,8,9\n"), rest)
        self.assertEqual(set(rest.splitlines()[:-1]) - {b"%d,0,0" % ahead}, set())
        running.stdin = io.BytesIO()


def stamp(second):
    """A time of the tests below."""
    return (datetime(2026, 11, 28, tzinfo=timezone.utc) + timedelta(seconds=second)).strftime("%Y-%m-%dT%H:%M:%SZ")


def power(random_, meters=60, hours=30):
    """Readings of power meters in the order in which they arrive, most of them up to ten minutes late, some lost."""
    found = []
    for meter in range(meters):
        silent = random_.randrange(hours) if meter % 9 == 0 else hours
        for quarter in range(4 * silent):
            second = 900 * quarter + random_.randrange(60)
            if random_.random() > 0.04:
                found.append((second + random_.randrange(600), second, f"M-{meter:03}", random_.randrange(-500, 4000)))
    return [(second, meter, wh) for _, second, meter, wh in sorted(found)]


class BesideSqlite(Folder):
    """Jobs that people have, with the answers of sqlite3."""

    def base(self, columns, rows):
        """A table in memory."""
        found = sqlite3.connect(":memory:")
        self.addCleanup(found.close)
        found.execute(f"CREATE TABLE r ({columns})")
        found.executemany(f"INSERT INTO r VALUES ({','.join('?' * len(rows[0]))})", rows)
        return found

    def lines(self, line):
        """The cells of an answer, without the header."""
        return [tuple(record) for record in csv.reader(io.StringIO(self.answer(line), newline=""))][1:]

    def power_files(self):
        """The readings as a raw file, and their table in the order of time."""
        readings = power(random.Random(7))
        raw = "".join(f'{stamp(second)},"{meter}",{"-" if wh < 0 else ""}{abs(wh) / 1000:.3f}\n' for second, meter, wh in readings)
        self.write("raw.csv", "timestamp,meter id,kwh\n" + raw)
        self.write("f", 'second = timestamp time s\nmeter = "meter id" text\nwh = kwh scale 3\n')
        ordered = sorted(enumerate(readings), key=lambda it: (it[1][0], it[0]))
        return self.base("place, second, meter, wh", [(place, *reading) for place, (_, reading) in enumerate(ordered)])

    @needs_program
    def test_power(self):
        """Sums of each hour, meters with few readings, last four readings of each meter, meters that fall silent."""
        base = self.power_files()
        declared = "STREAM M(second, meter, wh); "
        hours = declared + "SELECT meter, SUM(wh), COUNT(*) FROM M [RANGE 3600 SLIDE 3600] GROUP BY meter"
        self.write("hours", hours)
        self.write("few", "STREAM H(hour, meter, wh, n); SELECT hour, meter, n FROM H WHERE n < 4")
        self.write("last", declared + "SELECT meter, SUM(wh) FROM M [PARTITION BY meter ROWS 4 SLIDE 1]")
        self.write("gone", declared + "DSTREAM (SELECT meter FROM M [RANGE 3600 SLIDE 3600] GROUP BY meter)")
        run = "saber rows f raw.csv --slack 900 | saber run %s /dev/stdin --slack 900 --final"
        begin = "strftime('%Y-%m-%dT%H:%M:%SZ', (1795824000 + second) / 3600 * 3600, 'unixepoch')"
        by_hour = f"""SELECT {begin} AS hour, meter, SUM(wh) AS wh, COUNT(*) AS n FROM r GROUP BY 1, 2"""
        thousandth = "printf('%s%d.%03d', CASE WHEN {0} < 0 THEN '-' ELSE '' END, ABS({0}) / 1000, ABS({0}) % 1000)"
        wanted = base.execute(f"SELECT hour, meter, {thousandth.format('wh')}, CAST(n AS TEXT) FROM ({by_hour})").fetchall()
        found = [line[:4] for line in self.lines(run % "hours" + " | saber answers f hours")]
        self.assertEqual(sorted(found), sorted(wanted))
        means = self.lines(run % "hours" + " | saber answers f hours")
        self.assertTrue(all(abs(float(mean) - float(wh) / int(n)) < 1e-6 for _, _, wh, n, mean in means))
        wanted = base.execute(f"SELECT hour, meter, CAST(n AS TEXT) FROM ({by_hour}) WHERE n < 4").fetchall()
        chain = run % "hours" + " | saber run few /dev/stdin | saber answers f hours few"
        self.assertEqual(sorted(self.lines(chain)), sorted(wanted))
        wanted = base.execute(f"""SELECT CAST(i - 3 AS TEXT), meter, {thousandth.format('wh')} FROM (
            SELECT meter, ROW_NUMBER() OVER w - 1 AS i, SUM(wh) OVER (w ROWS 3 PRECEDING) AS wh FROM r
            WINDOW w AS (PARTITION BY meter ORDER BY place)) WHERE i >= 3""").fetchall()
        last = "saber rows f raw.csv | saber run last /dev/stdin --slack 900 | saber answers f last"
        self.assertEqual(sorted(self.lines(last)), sorted(wanted))
        number = "(1795824000 + second) / 3600"
        wanted = base.execute(f"""WITH h AS (SELECT DISTINCT {number} AS hour, meter FROM r)
            SELECT strftime('%Y-%m-%dT%H:%M:%SZ', (hour + 1) * 3600, 'unixepoch'), meter FROM h
            WHERE NOT EXISTS (SELECT 1 FROM h AS other WHERE other.hour = h.hour + 1 AND other.meter = h.meter)
            AND hour < (SELECT MAX(hour) FROM h)""").fetchall()
        self.assertEqual(sorted(self.lines(run % "gone" + " | saber answers f gone")), sorted(wanted))

    @needs_program
    def test_power_with_a_row_that_is_too_late(self):
        """A reading three hours late goes aside, and all others are answered."""
        base = self.power_files()
        raw = self.read("raw.csv").decode().splitlines(keepends=True)
        late = f'{stamp(60)},"M-059",9.999\n'
        self.write("raw.csv", "".join(raw[:1500] + [late] + raw[1500:]))
        self.write("q", "STREAM M(second, meter, wh); SELECT COUNT(*), SUM(wh) FROM M [RANGE 3600 SLIDE 3600]")
        line = "saber rows f raw.csv --slack 900 --late late.csv | saber run q /dev/stdin --slack 900 --final"
        ran = self.shell(line)
        self.assertEqual(ran.stderr.decode(), "saber rows: 1 row is later than 900 and in late.csv\n")
        self.assertEqual(self.read("late.csv").decode(), raw[0] + late.replace('"', ""))
        wanted = base.execute("SELECT (1795824000 + second) / 3600, COUNT(*), SUM(wh) FROM r GROUP BY 1 ORDER BY 1").fetchall()
        self.assertEqual(ran.stdout.decode(), "".join(f"{hour},{n},{wh}\n" for hour, n, wh in wanted))

    @needs_program
    def test_web_log(self):
        """Errors of each minute, alarms at a twentieth, statuses that come up in ten seconds."""
        random_, second, log = random.Random(11), 0, []
        for _ in range(4000):
            second += random_.choice([0, 0, 0, 1, 1, 2])
            bad = random_.random() < (0.2 if second // 60 % 5 == 0 else 0.02)
            log.append((second, random_.choice(["GET", "POST"]), 503 if bad else random_.choice([200, 200, 200, 304, 404]),
                        random_.randrange(1, 900)))
        raw = "".join(f'{stamp(at)};"{method} /a;b";{status};{millis / 1000:.3f}\n' for at, method, status, millis in log)
        self.write("raw.csv", "time;request;status;took\n" + raw)
        self.write("f", "delimiter ;\nsecond = time time s\nrequest = request text\nstatus = status int\n"
                   "took = took scale 3\nerror = status >= 500\nget = request = \"GET /a;b\"\n")
        base = self.base("second, method, status, millis", log)
        declared = "STREAM L(second, request, status, took, error, get); "
        self.write("minutes", declared + "SELECT SUM(error), COUNT(*), MAX(took), SUM(get) FROM L [RANGE 60 SLIDE 60]")
        self.write("alarm", "STREAM W(minute, errors, n, took, get); SELECT minute, errors, n FROM W WHERE errors * 20 > n")
        self.write("come", declared + "ISTREAM (SELECT status, request FROM L [RANGE 10 SLIDE 10] GROUP BY status, request)")
        run = "saber rows f raw.csv | saber run %s /dev/stdin --final"
        begin = "strftime('%Y-%m-%dT%H:%M:%SZ', (1795824000 + second) / {0} * {0}, 'unixepoch')"
        minutes = f"""SELECT {begin.format(60)} AS minute, SUM(status >= 500) AS errors, COUNT(*) AS n,
            printf('0.%03d', MAX(millis)) AS took, SUM(method = 'GET') AS get FROM r GROUP BY 1 ORDER BY 1"""
        found = [(at, int(errors), int(n), took, int(get)) for at, errors, n, _, took, get in
                 self.lines(run % "minutes" + " | saber answers f minutes")]
        self.assertEqual(found, base.execute(minutes).fetchall())
        wanted = base.execute(f"SELECT minute, errors, n FROM ({minutes}) WHERE errors * 20 > n").fetchall()
        alarms = [(at, int(errors), int(n)) for at, errors, n, *_ in
                  self.lines(run % "minutes" + " | saber run alarm /dev/stdin | saber answers f minutes alarm")]
        self.assertEqual(alarms, wanted)
        self.assertGreater(len(alarms), 3)
        wanted = base.execute(f"""WITH h AS (SELECT DISTINCT second / 10 AS i, status, method || ' /a;b' AS request FROM r)
            SELECT strftime('%Y-%m-%dT%H:%M:%SZ', 1795824000 + i * 10, 'unixepoch'), CAST(status AS TEXT), request FROM h
            WHERE NOT EXISTS (SELECT 1 FROM h AS o WHERE o.i = h.i - 1 AND o.status = h.status AND o.request = h.request)
            """).fetchall()
        self.assertEqual(sorted(self.lines(run % "come" + " | saber answers f come")), sorted(wanted))


    def cards_files(self):
        """Authorisations of cards and their clearings, as raw files and as tables."""
        random_, second, given, cleared = random.Random(3), 0, [], []
        for number in range(1500):
            second += random_.randrange(240)
            card, country = f"card {random_.randrange(80)}", random_.choice("DE DE DE DE FR PL".split())
            cents = random_.choice([999, 1250, random_.randrange(1, 90000)])
            given.append((number, second, f"a/{number}", card, country, cents))
            if random_.random() < 0.9:
                paid = cents if random_.random() < 0.9 else cents + random_.randrange(1, 300)
                cleared.append((second + random_.randrange(80000), f"a/{number}", paid))
        cleared.sort()
        euro = "{0}.{1:02}".format
        self.write("given.csv", "time|id|card|country|amount\n" + "".join(
            f"{stamp(at)}|{name}|{card}|{country}|{euro(*divmod(cents, 100))}\n" for _, at, name, card, country, cents in given))
        self.write("cleared.csv", "id,paid,time\n" + "".join(
            f"{name},{euro(*divmod(paid, 100))},{stamp(at)}\n" for at, name, paid in cleared))
        self.write("given.f", "texts t\ndelimiter |\nt = time time s\nid = id text\ncard = card text\n"
                   "country = country text\ncents = amount scale 2\n")
        self.write("cleared.f", "texts t\nt = time time s\nid = id text\npaid = paid scale 2\n")
        base = self.base("place, second, id, card, country, cents", given)
        base.execute("CREATE TABLE c (second, id, paid)")
        base.executemany("INSERT INTO c VALUES (?, ?, ?)", cleared)
        entries = sorted([(at, name, cents, "") for _, at, name, _, _, cents in given] +
                         [(at, name, "", paid) for at, name, paid in cleared])
        self.write("both.csv", "time,id,given,paid\n" + "".join(
            f"{stamp(at)},{name},{cents},{paid}\n" for at, name, cents, paid in entries))
        self.write("both.f", "t = time time s\nid = id text\ngiven = given int else 0\npaid = paid int else 0\n")
        return base

    @needs_program
    def test_cards(self):
        """Amounts that differ, two countries in an hour, the same amount twice, what isn't cleared."""
        base = self.cards_files()
        declared = "STREAM A(t, id, card, country, cents); "
        self.write("differ", declared + "STREAM C(t, id, paid); SELECT A.id, cents, paid FROM A [RANGE 86400 SLIDE 86400], "
                   "C [RANGE 86400 SLIDE 86400] WHERE A.id = C.id AND cents <> paid")
        day = "strftime('%Y-%m-%dT00:00:00Z', 1795824000 + {0}.second, 'unixepoch')"
        euro = "printf('%d.%02d', {0} / 100, {0} % 100)"
        wanted = base.execute(f"""SELECT {day.format('r')}, r.id, {euro.format('cents')}, {euro.format('paid')} FROM r, c
            WHERE r.id = c.id AND cents <> paid AND r.second / 86400 = c.second / 86400""").fetchall()
        found = self.lines("saber run differ <(saber rows given.f given.csv) <(saber rows cleared.f cleared.csv) --final "
                           "--task 65536 | saber answers given.f differ --right cleared.f")
        self.assertEqual((sorted(found), len(wanted) > 20), (sorted(wanted), True))
        self.write("countries", declared + "SELECT card, country FROM A [RANGE 3600 SLIDE 3600] GROUP BY card, country")
        self.write("count", "STREAM W(hour, card, country); SELECT card, COUNT(*) FROM W [RANGE 1 SLIDE 1] GROUP BY card")
        self.write("two", "STREAM W(hour, card, n); SELECT hour, card, n FROM W WHERE n > 1")
        hour = "strftime('%Y-%m-%dT%H:00:00Z', 1795824000 + second, 'unixepoch')"
        wanted = base.execute(f"""SELECT {hour}, card, CAST(COUNT(DISTINCT country) AS TEXT) FROM r GROUP BY 1, 2
            HAVING COUNT(DISTINCT country) > 1""").fetchall()
        found = self.lines("saber rows given.f given.csv | saber run countries /dev/stdin --final | saber run count /dev/stdin "
                           "--final | saber run two /dev/stdin | saber answers given.f countries count two")
        self.assertEqual((sorted(found), len(wanted) > 20), (sorted(wanted), True))
        self.write("twice", "STREAM A(t, id, card, country, cents); STREAM B(t, id, card, country, cents); SELECT A.id, B.id, "
                   "A.card FROM A [RANGE 7200 SLIDE 7200], B [RANGE 7200 SLIDE 7200] WHERE A.card = B.card "
                   "AND A.cents = B.cents AND A.id <> B.id")
        wanted = base.execute("""SELECT a.id, b.id, a.card FROM r AS a, r AS b WHERE a.card = b.card AND a.cents = b.cents
            AND a.place <> b.place AND a.second / 7200 = b.second / 7200""").fetchall()
        found = self.lines("saber rows given.f given.csv >rows; saber run twice rows rows --final | saber answers given.f twice")
        self.assertEqual((sorted(line[1:] for line in found), len(wanted) > 5), (sorted(wanted), True))
        self.write("sums", "STREAM E(t, id, given, paid); SELECT id, SUM(given), SUM(paid) FROM E [RANGE 86400 SLIDE 86400] GROUP BY id")
        self.write("open", "STREAM D(day, id, given, paid); SELECT day, id, given, paid FROM D WHERE given <> paid")
        wanted = base.execute(f"""SELECT {day.format('e')}, id, CAST(SUM(given) AS TEXT), CAST(SUM(paid) AS TEXT) FROM (
            SELECT second, id, cents AS given, 0 AS paid FROM r UNION ALL SELECT second, id, 0, paid FROM c) AS e
            GROUP BY 1, 2 HAVING SUM(given) <> SUM(paid)""").fetchall()
        found = self.lines("saber rows both.f both.csv | saber run sums /dev/stdin --final | saber run open /dev/stdin | "
                           "saber answers both.f sums open")
        self.assertEqual((sorted(found), len(wanted) > 100), (sorted(wanted), True))

    def trades_files(self):
        """Trades in nanoseconds, as a raw file and as a table."""
        random_, time_, trades = random.Random(4), 0, []
        for place in range(4000):
            time_ += random_.randrange(60_000_000)
            trades.append((place, time_ // 10**6, f"S{random_.randrange(12)}", random_.randrange(100, 99999), random_.randrange(1, 500)))
        self.write("raw.csv", "ts,symbol,price,size\n" + "".join(
            f"{stamp(ms // 1000)[:-1]}.{ms % 1000:03}{random_.randrange(10**6):06}Z,{symbol},{cents // 100}.{cents % 100:02},{size}\n"
            for _, ms, symbol, cents, size in trades))
        self.write("f", "ms = ts time ms\nsymbol = symbol text\nprice = price scale 2\nn = size int\nvalue = price * n\n")
        return self.base("place, ms, symbol, cents, size", trades)

    @needs_program
    def test_trades(self):
        """Means of twenty ticks, prices by volume of a minute each second, extremes of many rows at each row; the same by tasks."""
        base = self.trades_files()
        declared = "STREAM T(ms, symbol, price, n, value); "
        self.write("mean", declared + "SELECT symbol, SUM(price), COUNT(*) FROM T [PARTITION BY symbol ROWS 20 SLIDE 1]")
        wanted = base.execute("""SELECT i - 19, symbol, cents, 20 FROM (SELECT symbol, ROW_NUMBER() OVER w - 1 AS i,
            SUM(cents) OVER (w ROWS 19 PRECEDING) AS cents FROM r WINDOW w AS (PARTITION BY symbol ORDER BY place))
            WHERE i >= 19""").fetchall()
        found = self.lines("saber rows f raw.csv | saber run mean /dev/stdin | saber answers f mean")
        self.assertEqual(sorted((int(i), symbol, round(float(total) * 100), int(n)) for i, symbol, total, n, _ in found), sorted(wanted))
        self.assertTrue(all(round(float(mean) * 2000) == round(float(total) * 100) for _, _, total, _, mean in found))
        self.write("volume", declared + "SELECT symbol, SUM(value), SUM(n) FROM T [RANGE 60000 SLIDE 1000] GROUP BY symbol")
        wanted = base.execute("""WITH RECURSIVE w(i) AS (SELECT 1795823000 UNION ALL SELECT i + 1 FROM w WHERE i < 1795825000)
            SELECT strftime('%Y-%m-%dT%H:%M:%S.000Z', i, 'unixepoch'), symbol, SUM(cents * size), SUM(size) FROM w, r
            WHERE 1795824000000 + ms >= i * 1000 AND 1795824000000 + ms < i * 1000 + 60000
            AND i * 1000 + 60000 <= 1795824000000 + (SELECT MAX(ms) FROM r) GROUP BY 1, 2""").fetchall()
        found = self.lines("saber rows f raw.csv | saber run volume /dev/stdin | saber answers f volume")
        self.assertEqual(sorted((at, symbol, round(float(value) * 100), int(n)) for at, symbol, value, n in found), sorted(wanted))
        self.write("extremes", declared + "SELECT MIN(price), MAX(price), MAX(ms) FROM T [ROWS 512 SLIDE 1]")
        prices, times = zip(*base.execute("SELECT cents, ms FROM r ORDER BY place").fetchall())
        # The greatest value of a window of sqlite3 3.40.1 is wrong where its first row leaves, so these are worked out here.
        wanted = [(i, min(prices[i:i + 512]), max(prices[i:i + 512]), f"{stamp(ms // 1000)[:-1]}.{ms % 1000:03}Z")
                  for i, ms in enumerate(times[511:])]
        found = self.lines("saber rows f raw.csv | saber run extremes /dev/stdin | saber answers f extremes")
        self.assertEqual([(int(i), round(float(low) * 100), round(float(high) * 100), at) for i, low, high, at in found], wanted)
        self.answer("saber rows f raw.csv >rows")
        for query in ("mean", "volume", "extremes"):
            one = self.answer(f"saber run {query} rows --task 1 --threads 0")
            for words in ("--task 7 --threads 2", "--task 1024 --threads 8", "--task 65536 --threads 1"):
                self.assertEqual(self.answer(f"saber run {query} rows {words}"), one)


@needs_program
class Recipes(Folder):
    """The blocks of README.md, docs/RECIPES.md and docs/ROWS.md."""

    def test_recipes(self):
        """Each command of a session prints what stands below it; `x=..` holds for those behind it."""
        for path in ("README.md", "docs/RECIPES.md", "docs/ROWS.md"):
            page = os.path.basename(path)
            wrote = shutil.ignore_patterns("*.texts", "*.out")
            shutil.copytree(os.path.join(TOP, "examples"), os.path.join(self.folder, page, "examples"), ignore=wrote)
            with open(os.path.join(TOP, path), encoding="utf-8") as file:
                blocks = re.findall(r"^```shell-session\n(.*?)^```", file.read(), re.M | re.S)
            self.assertGreater(len(blocks), 0)
            for block in blocks:
                self.try_block(block, page)

    def try_block(self, block, page):
        """Each command of a block; files of /tmp are in this folder."""
        names = ""
        for part in re.split(r"^\$ ", block, flags=re.M)[1:]:
            command, told = split_command(part)
            with self.subTest(command):
                ran = self.shell((names + command).replace("/tmp/", f"{self.folder}/"), page)
                found = (ran.stdout + ran.stderr).decode().replace(f"{self.folder}/", "/tmp/")
                self.assertEqual(found, told)
            if re.match(r"\w+=", command):
                names += command


def split_command(part):
    """A command, with the lines that it goes on in, and what stands below it."""
    lines = part.splitlines(keepends=True)
    for end in range(1, len(lines)):
        command = "".join(lines[:end])
        if not command.endswith(("\\\n", "|\n")) and command.count("'") % 2 == 0:
            return command, "".join(lines[end:])
    return part, ""


if __name__ == "__main__":
    unittest.main()
