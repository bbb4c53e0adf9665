"""Many rows from a pipe, with memory watched."""
import subprocess
import tempfile
import time

MOST_KB = 20480
ROWS_A_WINDOW = 1000
WINDOWS = f"STREAM S(t); SELECT COUNT(*), MIN(t), MAX(t) FROM S [RANGE {ROWS_A_WINDOW} SLIDE {ROWS_A_WINDOW}]"
# Each row is a group, and a window has 200 tasks: who keeps slices of a closed window sums those of the next one up from each of them on.
GROUPS_A_WINDOW = 10_000
MOST_GROUPS = 300_000
GROUPS = f"SELECT t, COUNT(*) FROM S [RANGE {GROUPS_A_WINDOW} SLIDE {GROUPS_A_WINDOW}] GROUP BY t"
OF_GROUPS = [("in groups", f"STREAM S(t); {GROUPS}"), ("in groups that come", f"STREAM S(t); ISTREAM ({GROUPS})")]


def used(number):
    """The most memory that a process had so far, in KB, by its number; 0 behind its end."""
    try:
        with open(f"/proc/{number}/status", encoding="ascii") as file:
            return next((int(line.split()[1]) for line in file if line.startswith("VmHWM:")), 0)
    except OSError:
        return 0


def line_of_window(number, rows):
    """A line of the answer to WINDOWS over so many rows."""
    first = number * ROWS_A_WINDOW
    return b"%d,%d,%d,%d\n" % (number, min(ROWS_A_WINDOW, rows - first), first, min(first + ROWS_A_WINDOW, rows) - 1)


def line_of_group(number, _rows):
    """The same to the queries of groups."""
    return b"%d,%d,1\n" % (number // GROUPS_A_WINDOW, number)


def read_answer(ran, rows, line_of):
    """Reads an answer: how many lines there are, where each is as it has to be, or else the first that isn't, and the memory used."""
    count, most = -1, 0
    for count, line in enumerate(ran.stdout):
        most = max(most, used(ran.pid)) if count % 100 == 0 else most
        if line != line_of(count, rows):
            return f"line {count + 1} is {line[:80]}", most
    return count + 1, most


def try_query(program, what, query, rows, wanted, line_of, *options):
    """Rows of the times 0, 1, 2, .. from a pipe: the answer is known, and memory must not grow with them."""
    begun = time.monotonic()
    with tempfile.TemporaryDirectory(prefix="faults-") as folder:
        with open(f"{folder}/query", "w", encoding="utf-8") as file:
            file.write(query)
        with subprocess.Popen(["seq", "0", str(rows - 1)], stdout=subprocess.PIPE) as source:
            words = [program, "run", f"{folder}/query", "/dev/stdin", "--final", *options]
            with subprocess.Popen(words, stdin=source.stdout, stdout=subprocess.PIPE) as ran:
                source.stdout.close()
                lines, most = read_answer(ran, rows, line_of)
    good = ran.returncode == 0 and lines == wanted and 0 < most <= MOST_KB
    print(f"{'' if good else 'WRONG: '}large: {rows:,} rows from a pipe, {what}: status {ran.returncode}, {lines} lines, at most {most:,} KB, "
          f"{time.monotonic() - begun:.0f} s", flush=True)
    return int(not good)


def try_rows(program, rows):
    """So many rows in windows, and fewer of them in groups; how many runs were wrong of how many."""
    wrong = try_query(program, "in windows", WINDOWS, rows, -(-rows // ROWS_A_WINDOW), line_of_window)
    few = min(rows, MOST_GROUPS)
    for what, query in OF_GROUPS:
        wrong += try_query(program, what, query, few, few, line_of_group, "--task", "50")
    return wrong, 1 + len(OF_GROUPS)
