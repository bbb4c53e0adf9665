"""What is tried, as tables: the files, the ways of a run, and each case with the end that it must have."""
from typing import NamedTuple

TOP_TIME = 2**62
GREATEST, LEAST = 2**63 - 1, -2**63
# Rows of times 0 to 999, one key, the value 5.
ROWS = "".join(f"{at},1,5\n" for at in range(1000))
SUMS = "".join(f"{at},1,10\n" for at in range(500))
LINES_OF = "STREAM S(t,v); SELECT t, v FROM S"
NAMES = [f"c{at}" for at in range(32)]

FILES = {
    "sums": "STREAM S(t,g,v); SELECT g, SUM(v) FROM S [ROWS 2 SLIDE 2] GROUP BY g",
    "sums2": "STREAM S(t,g,v); SELECT g, SUM(v) FROM S [ROWS 2 SLIDE 2] GROUP BY g",
    "over": "STREAM R(i,g,s); SELECT i, s FROM R",
    "pairs": "STREAM A(t,g,v); STREAM B(t,g,v); SELECT A.t, B.t FROM A [ROWS 1 SLIDE 1], B [ROWS 1 SLIDE 1]",
    "values": LINES_OF,
    "times": "STREAM S(t,v); SELECT COUNT(*) FROM S [RANGE 1 SLIDE 1]",
    "total": "STREAM S(t,v); SELECT SUM(v) FROM S [ROWS 65536 SLIDE 65536]",
    "wide": f"STREAM S({','.join(NAMES)}); SELECT c31 FROM S",
    "wider": f"STREAM S({','.join(NAMES)},c32); SELECT c31 FROM S",
    "rows": ROWS,
    "none": "",
    "refused": f"{ROWS}1000,x,1\n",
}


class Case(NamedTuple):
    """A run: its words, the way it is run, the statuses that it may have, the text that it writes and its note.

    The text is FRONT where any front of the whole answer will do, the note ANY where any one of the program will do.
    """
    name: str
    words: str
    way: str
    statuses: tuple
    text: str = ""
    note: str = ""


FRONT, ANY = "a front", "any note"
OPEN, WRITE = "saber: left: open fault\n", "saber: write fault\n"

# Outputs, errors and inputs that are closed, full, of another kind, or gone early.
ENDS = [
    Case("standard output is closed", "run sums rows", "output closed", (6,), note=WRITE),
    Case("standard output is closed, nothing to write", "run sums none", "output closed", (0,)),
    Case("standard output is a full device", "run sums rows", "output full", (6,), note=WRITE),
    Case("standard output can't be written", "run sums rows", "output for reading", (6,), note=WRITE),
    Case("nobody reads the output", "run sums rows --task 1", "reader gone", (6,), note=WRITE),
    Case("nobody reads the output of a chain", "chain sums over rows --task 1", "reader gone", (6,), note=ANY),
    Case("nobody reads the demo", "demo 7 1000", "reader gone", (6,), note=WRITE),
    Case("the reader goes behind a byte", "run sums rows --task 1", "reader goes", (0, 6), FRONT, ANY),
    Case("standard error is closed", "run sums nothere", "error closed", (5,)),
    Case("standard error is a full device", "run sums nothere", "error full", (5,)),
    Case("standard input is closed", "run sums /dev/stdin", "input closed", (5,), note=OPEN),
    Case("all three are closed", "run sums rows", "all closed", (6,)),
    Case("a file of `many` is a full device", "many rows sums sums2", "sums.out full", (6,), note="saber: query 1: write fault\n"),
    Case("a file of `many` is a folder", "many rows sums sums2", "sums.out folder", (6,), note="saber: query 1: create fault\n"),
    Case("the rows are a folder", "run sums folder", "folder", (5,), note="saber: left: read fault\n"),
    Case("the query is a folder", "run folder rows", "folder", (5,), note=ANY),
    Case("a pipe that ends at once", "run sums pipe", "pipe of nothing", (0,)),
    Case("a pipe that ends in a line", "run sums pipe --task 1", "pipe of part", (0,), "0,1,10\n"),
    Case("a pipe that ends in a number", "run sums pipe --task 1", "pipe of less", (4,), "0,1,10\n", "saber: left line 3: field count\n"),
    Case("a pipe whose rows come one by one", "run sums pipe --task 1", "pipe of slow rows", (0,), "0,1,10\n1,1,10\n"),
]

# What is known to be wrong, with the words, the way, and the end that there should be: status, text and files, note. The system gives
# the number of a closed file to the next that is opened, and the program takes 0, 1 and 2 for its own whatever they are.
KNOWN = [
    ("notes of `many` go into its file where both outputs are closed", "many refused sums sums2", "outputs closed", (4, ["", SUMS, SUMS], "")),
    ("a closed standard input, named as the right file, is the left one", "run pairs rows /dev/stdin", "input closed",
     (5, [""], "saber: right: open fault\n")),
]

# A line of fields and what the query `values` (or another) says of it.
LIMITS = [
    Case("the greatest time", "run values left", f"left {TOP_TIME},1", (0,), f"{TOP_TIME},1\n"),
    Case("the window of the greatest time", "run times left --final", f"left {TOP_TIME},1", (0,), f"{TOP_TIME},1\n"),
    Case("a time too great", "run values left", f"left {TOP_TIME + 1},1", (4,), "", "saber: left line 1: range in field 1\n"),
    Case("a time below 0", "run values left", "left -1,1", (4,), "", "saber: left line 1: range in field 1\n"),
    Case("the greatest number", "run values left", f"left 0,{GREATEST}", (0,), f"0,{GREATEST}\n"),
    Case("the least number", "run values left", f"left 0,{LEAST}", (0,), f"0,{LEAST}\n"),
    Case("a number too great", "run values left", f"left 0,{GREATEST + 1}", (4,), "", "saber: left line 1: range in field 2\n"),
    Case("a number too small", "run values left", f"left 0,{LEAST - 1}", (4,), "", "saber: left line 1: range in field 2\n"),
    Case("a number of many zeros", "run values left", f"left 0,{'0' * 4093}7", (0,), "0,7\n"),
    Case("a line of 4,096 bytes", "run values left", f"left 0,{'0' * 4094}", (0,), "0,0\n"),
    Case("a line of 4,097 bytes", "run values left", f"left 0,{'0' * 4095}", (4,), "", "saber: left line 1: too long\n"),
    Case("a line of 4,096 bytes and CR", "run values left", f"left 0,{'0' * 4094}\r", (0,), "0,0\n"),
    Case("sums over 64 bits", "run total left --final", f"left 0,{GREATEST}\n0,{GREATEST}\n0,{GREATEST}", (0,), f"0,{3 * GREATEST}\n"),
    Case("sums below 64 bits", "run total left --final", f"left 0,{LEAST}\n0,{LEAST}\n0,{LEAST}", (0,), f"0,{3 * LEAST}\n"),
    Case("32 columns", "run wide left", f"left {','.join(map(str, range(32)))}", (0,), "31\n"),
    Case("33 columns", "check wider", "", (3,), "", ANY),
    Case("as many lines as may be", "run sums rows --max-lines 1000", "", (0,), SUMS),
    Case("a line too many", "run sums rows --max-lines 999", "", (4,), SUMS[:SUMS.rindex("499")], "saber: left line 1000: too many lines\n"),
    Case("the greatest slack", f"run values left --slack {2**40}", f"left {2**40},1\n0,2", (0,), f"0,2\n{2**40},1\n"),
    Case("a time behind the greatest slack", f"run values left --slack {2**40}", f"left {2**40 + 1},1\n0,2", (4,), f"{2**40 + 1},1\n",
         "saber: left line 2: time order\n"),
    Case("the greatest options", f"run sums rows --task 65536 --ring 1024 --threads 64 --max-lines {2**40}", "", (0,), SUMS),
    Case("64 threads", "run sums rows --task 1 --threads 64", "", (0,), SUMS),
    Case("64 threads on a ring of one", "run sums rows --task 1 --threads 64 --ring 1", "", (0,), SUMS),
    Case("64 threads in a chain", "chain sums over rows --task 1 --threads 64", "", (0,), SUMS.replace(",1,", ",")),
    Case("65 threads", "run sums rows --threads 65", "", (2,), "", ANY),
    Case("nothing in the file", "run sums none", "", (0,)),
]

# Limits of the system: of each the whole answer or the status of want.
COMMANDS = {
    "run": "run sums rows --task 8 --threads 4",
    "chain": "chain sums over rows --task 8 --threads 4",
    "join": "run pairs rows rows --task 8 --threads 4",
    "many": "many rows sums sums2 --task 8 --threads 4",
    "demo": "demo 7 1000 --threads 4",
}
