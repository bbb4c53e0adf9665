"""What is measured: queries, the files of rows that they are asked over, and how awk and sqlite3 answer the same."""

STREAM = "STREAM S(t, g, v); "
JOIN = "STREAM A(t, x); STREAM B(t, y); SELECT x, y FROM A [RANGE 64 SLIDE 64], B [RANGE 64 SLIDE 64] WHERE A.x = B.y"


class Query:
    """A query with its name, as it is told, its text, how many groups its rows have (0: the two files of a join) and its part of the rows."""

    def __init__(self, name, told, text, groups, part=1):
        self.name, self.told, self.text, self.groups, self.part = name, told, text, groups, part


def of_groups(items, window, by=" GROUP BY g"):
    return f"{STREAM}SELECT {items} FROM S [{window}]{by}"


QUERIES = [
    Query("count", "COUNT(*), ROWS 1024 SLIDE 1024", of_groups("COUNT(*)", "ROWS 1024 SLIDE 1024", ""), 64),
    Query("groups", "g, COUNT(*), SUM(v), RANGE 1000 SLIDE 250, 64 groups", of_groups("g, COUNT(*), SUM(v)", "RANGE 1000 SLIDE 250"), 64),
    Query("sliding", "g, SUM(v), MIN(v), MAX(v), ROWS 1024 SLIDE 64, 16 groups", of_groups("g, SUM(v), MIN(v), MAX(v)", "ROWS 1024 SLIDE 64"), 16),
    Query("filter", "g, v * 2 - 1 WHERE v > 500", f"{STREAM}SELECT g, v * 2 - 1 FROM S WHERE v > 500", 64),
    Query("moving", "SUM(v), MIN(v), MAX(v), ROWS 1024 SLIDE 1", of_groups("SUM(v), MIN(v), MAX(v)", "ROWS 1024 SLIDE 1", ""), 64, 5),
    Query("overlap", "g, SUM(v), MIN(v), MAX(v), ROWS 1024 SLIDE 16, 64 groups", of_groups("g, SUM(v), MIN(v), MAX(v)", "ROWS 1024 SLIDE 16"), 64, 5),
    Query("keys", "g, COUNT(*), SUM(v), ROWS 65536 SLIDE 65536, 100,000 groups", of_groups("g, COUNT(*), SUM(v)", "ROWS 65536 SLIDE 65536"), 100_000),
    Query("join", "x, y of two streams, RANGE 64 SLIDE 64, WHERE x = y", JOIN, 0, 5),
    Query("each key", "g, SUM(v), PARTITION BY g ROWS 16 SLIDE 4, 10,000 keys", of_groups("g, SUM(v)", "PARTITION BY g ROWS 16 SLIDE 4", ""), 10_000, 5),
    Query("gains", "ISTREAM of g, MAX(v), ROWS 1024 SLIDE 16, 64 groups", f"{STREAM}ISTREAM (SELECT g, MAX(v) FROM S [ROWS 1024 SLIDE 16] GROUP BY g)", 64, 5),
]
BY_NAME = {query.name: query for query in QUERIES}


def moving_sum(n):
    """The sum of the last n rows, with each row."""
    return Query(f"last {n}", "", of_groups("SUM(v)", f"ROWS {n} SLIDE 1", ""), 64)


def many_keys(groups):
    """Sums by key over side by side windows of 65,536 rows."""
    return Query(f"{groups} keys", "", of_groups("g, SUM(v)", "ROWS 65536 SLIDE 65536"), groups)


# The same answers by awk, but of queries for which it takes too long, or too much to write. Pieces of a window that lie between two slides are worked out once (`pane`), and joined where the window ends:
# `panes` of them are a window. A pane is `slide` rows, or with `by_time` so much time.
AWK_PANES = """
BEGIN { FS = ","; OFS = ","; pane = 0 }
function end_pane(    first, g, p) {
    first = pane - panes + 1
    if (first >= 0)
        for (g = 0; g <= greatest; g++) {
            n = sum = 0; least = 1e9; most = -1e9
            for (p = first; p <= pane; p++) if ((p, g) in counts) JOIN
            if (n) PRINT
        }
    if (first >= 0) for (g = 0; g <= greatest; g++) delete counts[first, g]
    pane++
}
{
    at = by_time ? int($1 / slide) : int((NR - 1) / slide)
    while (pane < at) end_pane()
    if ($2 > greatest) greatest = $2 + 0
    ADD
}
END { if (!by_time && NR % slide == 0) end_pane() }
"""
COUNT_AND_SUM = {
    "JOIN": "{ n += counts[p, g]; sum += sums[p, g] }",
    "PRINT": "print first, g, n, sum",
    "ADD": "counts[pane, $2]++; sums[pane, $2] += $3",
}
LEAST_AND_MOST = {
    "JOIN": "{ n += counts[p, g]; sum += sums[p, g]; if (low[p, g] < least) least = low[p, g]; if (high[p, g] > most) most = high[p, g] }",
    "PRINT": "print first, g, sum, least, most",
    "ADD": """if (!((pane, $2) in counts)) { sums[pane, $2] = 0; low[pane, $2] = high[pane, $2] = $3 }
    counts[pane, $2]++; sums[pane, $2] += $3
    if ($3 < low[pane, $2]) low[pane, $2] = $3
    if ($3 > high[pane, $2]) high[pane, $2] = $3""",
}


def panes(parts):
    text = AWK_PANES
    for name, part in parts.items():
        text = text.replace(name, part)
    return text


# A join holds the second file, by window and value; the first one is gone through a second time where its last time is known.
AWK_JOIN = """
BEGIN { FS = "," }
{ if ($1 > last) last = $1 + 0 }
FNR == 1 { file++ }
file == 2 { w = int($1 / 64); rights[w, $2]++ }
file == 3 { w = int($1 / 64); if (w * 64 + 64 <= last) for (i = rights[w, $2]; i > 0; i--) print w "," $2 "," $2 }
"""

AWK = {
    "count": (["-F,"], "{ if (++n == 1024) { print window++ \",\" n; n = 0 } }"),
    "groups": (["-v", "panes=4", "-v", "slide=250", "-v", "by_time=1"], panes(COUNT_AND_SUM)),
    "sliding": (["-v", "panes=16", "-v", "slide=64"], panes(LEAST_AND_MOST)),
    "filter": (["-F,"], "$3 > 500 { print $2 \",\" $3 * 2 - 1 }"),
    "keys": (["-v", "panes=1", "-v", "slide=65536"], panes(COUNT_AND_SUM)),
    "join": ([], AWK_JOIN),
}


def awk(query, files):
    """The words by which awk answers a query, or nothing."""
    if query.name not in AWK:
        return None
    words, text = AWK[query.name]
    return ["awk", *words, text, *(files[:1] + files[1:] + files[:1] if query.name == "join" else files)]


# The same by SQL: the panes as groups, then each joined with the windows that have it.
SQL_PANES = """
WITH RECURSIVE k(k) AS (VALUES (0) UNION ALL SELECT k + 1 FROM k WHERE k + 1 < {panes}),
     pane AS (SELECT {at} AS p, g, COUNT(*) AS n, SUM(v) AS s, MIN(v) AS low, MAX(v) AS high FROM S GROUP BY 1, 2)
SELECT p - k AS w, g, {items} FROM pane, k WHERE p >= k AND {closed} GROUP BY w, g ORDER BY w, g;
"""


def by_rows(count, slide, items):
    ended = f"(p - k + {count}) * {slide} <= (SELECT MAX(rowid) FROM S)"
    return SQL_PANES.format(panes=count, at=f"(rowid - 1) / {slide}", items=items, closed=ended)


def by_time(count, slide, items):
    ended = f"(p - k + {count}) * {slide} <= (SELECT MAX(t) FROM S)"
    return SQL_PANES.format(panes=count, at=f"t / {slide}", items=items, closed=ended)


SQL = {
    "count": "SELECT (rowid - 1) / 1024 AS w, COUNT(*) AS n FROM S GROUP BY w HAVING n = 1024 ORDER BY w;",
    "groups": by_time(4, 250, "SUM(n), SUM(s)"),
    "sliding": by_rows(16, 64, "SUM(s), MIN(low), MAX(high)"),
    "filter": "SELECT g, v * 2 - 1 FROM S WHERE v > 500;",
    "keys": by_rows(1, 65536, "SUM(n), SUM(s)"),
    "join": """WITH ended(t) AS (SELECT MAX(t) FROM (SELECT MAX(t) AS t FROM A UNION ALL SELECT MAX(t) FROM B)),
     lefts AS (SELECT rowid AS r, t / 64 AS w, x FROM A), rights AS (SELECT rowid AS r, t / 64 AS w, y FROM B)
SELECT l.w, x, y FROM lefts AS l JOIN rights AS r ON l.w = r.w AND x = y
WHERE l.w * 64 + 64 <= (SELECT t FROM ended) ORDER BY l.w, l.r, r.r;""",
}


def sqlite(query, files):
    """The words by which sqlite3 answers a query in memory, with its import, or nothing."""
    if query.name not in SQL:
        return None
    if query.groups:
        tables, names = "CREATE TABLE S(t INTEGER, g INTEGER, v INTEGER);", ["S"]
    else:
        tables, names = "CREATE TABLE A(t INTEGER, x INTEGER); CREATE TABLE B(t INTEGER, y INTEGER);", ["A", "B"]
    imports = [f".import {file} {name}" for file, name in zip(files, names)]
    return ["sqlite3", "-batch", ":memory:", ".mode list", ".separator ,", tables, *imports, SQL[query.name]]
