"""The numbers of texts, kept in a file, so that a text has one number in all runs over all files.

A line is `NUMBER,TEXT`, of CSV. Whoever adds a line holds the file's lock and has read what others added before.
The empty text is 0, and isn't in the file.
"""
import csv
import fcntl
import io
import os

from faults import FILE, Fault, file_fault
from raw import ENCODING, csv_line, why_no_csv


class Texts(dict):
    """The number of each text; one that is asked for the first time is given the next number."""

    def __init__(self, path):
        super().__init__({"": 0})
        self.path, self.of_number, self.last = path, {0: ""}, 0
        self.file, self.taken, self.line = None, 0, 0
        if os.path.exists(path):
            self.learn()

    def opened(self, flags):
        """A descriptor of the file, opened so."""
        try:
            return os.open(self.path, flags | os.O_CLOEXEC, 0o666)
        except OSError as error:
            raise file_fault(self.path, error) from None

    def learn(self):
        """Reads what the file has and this table hasn't."""
        file = self.opened(os.O_RDONLY)
        try:
            fcntl.flock(file, fcntl.LOCK_SH)
            self.read_on(file)
        except OSError as error:
            raise file_fault(self.path, error) from None
        finally:
            os.close(file)

    def read_on(self, file):
        """Reads on from where this table has read the file."""
        os.lseek(file, self.taken, os.SEEK_SET)
        with os.fdopen(os.dup(file), "rb") as it:
            got = it.read()
        if got and not got.endswith(b"\n"):
            raise Fault(FILE, f"{self.path}: the last line has no end")
        try:
            for record in csv.reader(io.StringIO(got.decode(**ENCODING), newline="\n"), strict=True):
                self.take(record)
        except csv.Error as error:
            raise Fault(FILE, f"{self.path}: text {self.line + 1}: {why_no_csv(error)}") from None
        self.taken += len(got)

    def take(self, record):
        """Takes in a line of the file."""
        self.line += 1
        if len(record) != 2 or not (record[0].isascii() and record[0].isdigit()):
            raise Fault(FILE, f"{self.path}: text {self.line} is no line NUMBER,TEXT")
        number, text = int(record[0][:30]), record[1]
        if number in self.of_number or text in self:
            raise Fault(FILE, f"{self.path}: text {self.line} has a number or a text that stands above")
        self.keep(number, text)

    def keep(self, number, text):
        """This text has this number."""
        self[text], self.of_number[number], self.last = number, text, max(self.last, number)

    def __missing__(self, text):
        """A text that this table hasn't: another run may have added it, else it is added."""
        if self.file is None:
            self.file = self.opened(os.O_RDWR | os.O_APPEND | os.O_CREAT)
        try:
            fcntl.flock(self.file, fcntl.LOCK_EX)
            self.read_on(self.file)
            if text not in self:
                self.add(text)
        except OSError as error:
            raise file_fault(self.path, error) from None
        finally:
            fcntl.flock(self.file, fcntl.LOCK_UN)
        return self[text]

    def add(self, text):
        """Adds a text with the next number, at the end of the file."""
        number = self.last + 1
        data = csv_line((str(number), text)).encode(**ENCODING)
        os.write(self.file, data)
        self.taken, self.line = self.taken + len(data), self.line + 1
        self.keep(number, text)

    def text(self, number):
        """The text of a number; a number that none has stays one."""
        if number not in self.of_number and os.path.exists(self.path):
            self.learn()
        return self.of_number.get(number, str(number))

