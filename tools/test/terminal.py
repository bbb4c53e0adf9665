"""The wrapper where standard error is a terminal: the line that shows how far a run is, notes, interrupts."""
import fcntl
import os
import pty
import re
import select
import signal
import subprocess
import termios
import time
import unittest

import trees

LINE = re.compile(rb"\rsaber: (\d+) %, ([\d,]+) rows a second\x1b\[K")
GONE = b"\r\x1b[K"
QUERY = "STREAM S(t, v); SELECT t, v FROM S;"


class Terminal(unittest.TestCase):
    def setUp(self):
        self.place = trees.Installation(self)
        self.place.write("q.cql", QUERY)
        self.place.write("few.csv", "0,1\n1,2\n")
        self.place.write("bad.csv", "0,1\n1,x\n")
        self.master, self.slave = pty.openpty()
        self.addCleanup(os.close, self.master)
        self.shown = b""

    def begin(self, *words, stdout=subprocess.PIPE, **environment):
        """Calls the wrapper in a session of its own, whose terminal has its standard error."""
        def own_terminal():
            os.setsid()
            fcntl.ioctl(2, termios.TIOCSCTTY, 0)

        ran = subprocess.Popen([self.place.saber, *words], cwd=self.place.at, env={**self.place.environment, **environment}, stdin=subprocess.DEVNULL,
                               stdout=stdout, stderr=self.slave, preexec_fn=own_terminal)
        if stdout != self.slave:
            os.close(self.slave)
        return ran

    def look(self, seconds=0.0):
        """Reads what the terminal shows."""
        while select.select([self.master], [], [], seconds)[0]:
            try:
                part = os.read(self.master, 1 << 16)
            except OSError:
                return
            if not part:
                return
            self.shown += part

    def many_rows(self):
        with open(f"{self.place.at}/rows.csv", "w", encoding="utf-8") as file:
            file.writelines(f"{at},{at % 1000}\n" for at in range(400_000))

    def read_slowly(self, ran, seconds):
        """Takes the answer by pieces, so that the run lasts."""
        answer, size, end = [], os.path.getsize(f"{self.place.at}/rows.csv"), time.monotonic() + seconds
        while part := os.read(ran.stdout.fileno(), max(4096, size // 150)):
            answer.append(part)
            self.look()
            if time.monotonic() < end:
                time.sleep(seconds / 200)
        ran.stdout.close()
        status = ran.wait(timeout=120)
        self.look(0.2)
        return status, b"".join(answer)

    def rows(self):
        with open(f"{self.place.at}/rows.csv", "rb") as file:
            return file.read()

    def test_a_long_run_shows_how_far_it_is(self):
        self.many_rows()
        status, answer = self.read_slowly(self.begin("run", "q.cql", "rows.csv"), 5)
        self.assertEqual((status, answer), (0, self.rows()))
        lines = LINE.findall(self.shown)
        shares = [int(share) for share, _ in lines]
        self.assertGreater(len(lines), 1, self.shown)
        self.assertEqual(shares, sorted(shares))
        self.assertTrue(0 < shares[0] <= shares[-1] <= 100, shares)
        self.assertTrue(all(1000 < int(rows.replace(b",", b"")) < 1_000_000 for _, rows in lines), lines)
        self.assertEqual(LINE.sub(b"", self.shown), GONE)

    def test_not_where_it_is_turned_off(self):
        self.many_rows()
        status, answer = self.read_slowly(self.begin("run", "q.cql", "rows.csv", SABER_PROGRESS="0"), 3)
        self.assertEqual((status, answer, self.shown), (0, self.rows(), b""))

    def test_not_of_a_pipe(self):
        self.many_rows()
        os.mkfifo(f"{self.place.at}/pipe")
        with subprocess.Popen(["cp", "rows.csv", "pipe"], cwd=self.place.at) as feeding:
            status, answer = self.read_slowly(self.begin("run", "q.cql", "pipe"), 3)
            feeding.wait(timeout=120)
        self.assertEqual((status, answer, self.shown), (0, self.rows(), b""))

    def test_not_of_a_short_run(self):
        ran = self.begin("run", "q.cql", "few.csv")
        answer, _ = ran.communicate(timeout=120)
        self.look(0.2)
        self.assertEqual((ran.returncode, answer, self.shown), (0, b"0,1\n1,2\n", b""))

    def test_not_among_an_answer(self):
        ran = self.begin("run", "q.cql", "few.csv", stdout=self.slave)
        ran.wait(timeout=120)
        self.look(0.2)
        os.close(self.slave)
        self.assertEqual(self.shown, b"0,1\r\n1,2\r\n")

    def test_a_note_comes_first(self):
        ran = self.begin("run", "q.cql", "bad.csv")
        answer, _ = ran.communicate(timeout=120)
        self.look(0.2)
        self.assertEqual((ran.returncode, answer), (4, b"0,1\n"))
        self.assertTrue(self.shown.startswith(b"saber: left line 2: bad number in field 2\r\n"), self.shown)

    def waiting(self, *words):
        """A run that waits for its rows, and the writing end of what it waits for."""
        os.mkfifo(f"{self.place.at}/pipe")
        ran = self.begin(*words)
        feeding = os.open(f"{self.place.at}/pipe", os.O_WRONLY)
        os.write(feeding, b"0,1\n")
        self.assertEqual(os.read(ran.stdout.fileno(), 100), b"0,1\n")
        return ran, feeding

    def ended(self, ran, feeding):
        status = ran.wait(timeout=120)
        ran.stdout.close()
        # The program is gone too: nobody reads.
        with self.assertRaises(BrokenPipeError):
            os.write(feeding, b"1,1\n")
        os.close(feeding)
        return status

    def test_an_interrupt_ends_both(self):
        ran, feeding = self.waiting("run", "q.cql", "pipe", "--task", "1", "--threads", "0")
        os.write(self.master, b"\x03")
        self.assertEqual(self.ended(ran, feeding), -signal.SIGINT)
        self.look(0.2)
        self.assertNotIn(b"Traceback", self.shown)

    def test_a_signal_to_the_wrapper_ends_both(self):
        ran, feeding = self.waiting("run", "q.cql", "pipe", "--task", "1", "--threads", "0")
        os.kill(ran.pid, signal.SIGTERM)
        self.assertEqual(self.ended(ran, feeding), -signal.SIGTERM)
