"""What people write in a query that it doesn't have, and a sentence for each."""

# Of each table the first pattern that is found gives the sentence. It is looked for, in any case, in the tokens before the byte of the fault, an
# `@`, and the tokens from there on, all with one blank between; where no token begins at the byte, the text stands behind the `@`. A word in
# capitals is a whole token, {keyword} any of the keywords. A sentence may name what the pattern names, and the `values` of queries.py.
SYNTAX = [
    # the beginning
    (r"^@ $", "the query is empty: such as STREAM S(time, a, b); SELECT a, b FROM S"),
    (r"^@ \[", "this looks like JSON, and a query is wanted here: {usage}"),
    (r"^@ (- )?\d|^@ \w+ ,", "these look like rows, and a query is wanted here: {usage}"),
    (r"@ - -|- - @ \w|, @ - -|, - @ -", "a query has no comments: take the text behind -- out"),
    (r"^@ (SELECT|[RID]STREAM)", "each stream is declared before SELECT, with the names of its columns: STREAM S(time, a, b);"),
    (r"(^|; )@ (CREATE|WITH|INSERT|EMIT|DECLARE)", "there is no {at}: a query is STREAM S(time, a, b); and one SELECT"),
    (r"^@ ", "a query begins with the declaration of its stream: STREAM S(time, a, b);"),
    # declarations
    (r"STREAM @ (?P<word>{keyword})", "{word} is a keyword, which can't be the name of a stream"),
    (r"STREAM \w+ \([\w ,]*[(,] @ (?P<word>{keyword})", "{word} is a keyword, which can't be the name of a column"),
    (r"STREAM @ \(", "a stream has a name: STREAM S(time, a, b);"),
    (r"STREAM \w+ \( @ \)", "a stream has one column at least, its time: STREAM S(time, a, b);"),
    (r"STREAM \w+ \([\w ,]*@ \(", "the columns stand in one pair of parentheses, by their names alone"),
    (r"STREAM \w+ \([\w ,]*\w @ (?!{keyword})\w+ [(,)]", "a column is declared by its name alone, without a type (all are 64-bit integers), and a comma stands between two"),
    (r"STREAM \w+ \([\w ,]*\w @ \w", "between columns stands a comma, and behind the last one ) and ;"),
    (r"STREAM \w+ \([\w ,]*\) @ ", "a declaration ends with ; behind its closing parenthesis"),
    (r"STREAM \w+ @ (AS|\[|FROM|WITH)", "a stream is declared with its columns alone: STREAM S(time, a, b);"),
    # from one part to the next
    (r"STREAM [^@;]*; @ $", "SELECT is missing behind the declarations"),
    (r"STREAM [^@;]*; @ (FROM|WHERE|GROUP)|SELECT ((?!FROM ).)*@ WHERE", "the order is SELECT .. FROM .. WHERE .. GROUP BY .."),
    (r"SELECT .*; @ ;", "the query ends with one ; at most"),
    (r"; @ ;", "a declaration ends with one ;"),
    (r"SELECT .*; @ (SELECT|[RID]STREAM)", "a file has one query: put this one into a file of its own, and both are answered by saber many"),
    (r"SELECT .*; @ STREAM", "declarations stand before SELECT, and a file has one query"),
    (r"SELECT .*; @ ", "behind the ; of the query nothing stands"),
    # parentheses
    (r"(; |[RID]STREAM \( )@ \( SELECT", "a SELECT has parentheses round it only behind a stream word, ISTREAM (SELECT ..), one pair"),
    (r"@ \( SELECT|(?<!STREAM )\( @ SELECT", "a query has no query inside: saber chain answers a second one over the answer of the first"),
    (r"FROM @ \(", "FROM names streams: saber chain answers a query over the answer of another"),
    (r"(SELECT|,|\(|[-+*=<>]) @ \(", "arithmetic has no parentheses: (a + b) * 2 is a * 2 + b * 2"),
    # items
    (r"SELECT @ \*|, @ \* (,|FROM)", "there is no SELECT *: name each column"),
    (r"SELECT (ALL|TOP) @ ", "there is no {before}"),
    (r"\w \. @ \*", "there is no {owner}.*: name each column"),
    (r"COUNT \( @ DISTINCT", "there is no DISTINCT: GROUP BY the column, and count the lines by a second query (saber chain)"),
    (r"DISTINCT @ |@ DISTINCT", "there is no DISTINCT: GROUP BY the columns answers each of their values once in a window"),
    (r"COUNT \( @ ", "there are no nulls, so rows alone are counted: COUNT(*)"),
    (r"COUNT @ ", "COUNT is a keyword: as an item it is COUNT(*), and no column has this name"),
    (r"(?P<word>SUM|MIN|MAX) \( @ [*)]", "{word} wants a value, such as a column: only COUNT takes *"),
    (r"(?P<word>SUM|MIN|MAX) @ [^(]", "{word} is a keyword: as an item it is {word}(column), and no column has this name"),
    (r"(?P<word>SUM|MIN|MAX) \( [\w .+*-]+ @ ,", "{word} takes one value"),
    (r"(SUM|MIN|MAX) \( @ (SUM|MIN|MAX|COUNT)", "aggregates don't stand inside one another: a second query has the answers of the first as rows (saber chain)"),
    (r"CASE @ |@ CASE", "there is no CASE: make a column of 0 and 1 before, and SUM it"),
    (r"IF @ \(|IIF @ \(", "there is no IF: make a column of 0 and 1 before, and SUM it"),
    (r"(AVG|MEAN) @ \(", "there is no {before}: ask for SUM(..) and COUNT(*), and divide what comes"),
    (r"(TUMBLE|TUMBLING|HOP|HOPPING|SESSION|CUMULATE)\w* @ \(", "there is no {before}: a window stands behind its stream, FROM S [RANGE 60 SLIDE 60]"),
    (r"(?P<word>WHERE|AND|OR|NOT) (\( )*@ (COUNT|SUM|MIN|MAX)", "{word} tests rows, not answers: put a test of answers into a second query (saber chain)"),
    (r"FROM \w+ @ \(", "a window stands in square brackets: FROM S [RANGE 60 SLIDE 60]"),
    (r"GROUP BY .*(?<= )(?!AND |OR |NOT |WHERE |BY )\w+ @ \(", "GROUP BY takes columns alone: a window stands behind its stream, FROM S [RANGE 60 SLIDE 60]"),
    (r"(MEDIAN|STDDEV\w*|STD|VAR\w*|PERCENTILE\w*|QUANTILE\w*|FIRST|LAST|MODE|APPROX\w*|RANK|ROW_NUMBER|LAG|LEAD) @ \(",
     "there is no {before}: the aggregates are COUNT(*), SUM, MIN and MAX"),
    (r"\b(?!{keyword}|IN )\w+ @ \(", "there is no function {before}: the aggregates are COUNT(*), SUM, MIN and MAX, and arithmetic has + - *"),
    (r"(SUM|MIN|MAX) \([^()]*\) @ [-+*]|COUNT \( \* \) @ [-+*]", "arithmetic stands inside an aggregate, SUM(a * 2), or is done with what comes"),
    (r"@ OVER", "there is no OVER: a window stands behind its stream, FROM S [PARTITION BY g ROWS 4 SLIDE 1]"),
    (r"SELECT ((?!FROM ).)*@ AS", "items have no names: leave AS and the name out"),
    (r"FROM \w+( \[[^]]*\])? @ AS|FROM .* , \w+( \[[^]]*\])? @ AS", "streams have no second names: leave AS and the name out"),
    (r"(SELECT|,) @ (FROM|\)|,)|\( @ ,", "something is missing here, or a comma is too many"),
    (r"SELECT ((?!FROM ).)*@ (=|<>|<=?|>=?|AND|OR|NOT)( |$)", "an item is a value, and conditions stand in WHERE"),
    # arithmetic
    (r"\[[^]]*@ \.", "sizes and slides are whole numbers"),
    (r"\d @ \. ?\d|\d \. @ \d|@ \. \d|\d @ \.", "there are no decimals: scale the column to whole numbers, such as cents or millis"),
    (r"(WHERE|AND|OR|NOT|\() \( ((?!AND |OR |NOT )[\w.*+-]+ )+@ \)", "parentheses stand round a condition, not round arithmetic: (a + b) * 2 is a * 2 + b * 2"),
    (r"\d @ E\d*\b", "a number is digits alone, without an exponent"),
    (r"\d @ _\d*\b", "a number is digits alone, without _"),
    (r"[-+*] @ \+|(SELECT|,|WHERE|AND|OR|NOT|\() @ \+", "a number has no + before it"),
    (r"\* @ \*", "there is no power: a * a"),
    # windows
    (r"\[ (.* )?(?P<word>RANGE|ROWS) (?P<size>\d+) @ (\]|$)", "SLIDE is missing: {word} {size} SLIDE {size} for windows side by side"),
    (r"\[ @ SLIDE", "the size of a window stands before SLIDE: [RANGE 60 SLIDE 10]"),
    (r"\[ PARTITION BY [\w ,.]*@ RANGE", "windows of each key are of rows: [PARTITION BY g ROWS 4 SLIDE 1], without RANGE"),
    (r"\[ PARTITION BY ((?!ROWS )[\w,.]+ )+(ROWS )?@ (SLIDE|\])", "windows of each key have a size: [PARTITION BY g ROWS 4 SLIDE 1]"),
    (r"\[ (RANGE|ROWS) \d+( SLIDE \d+)? @ PARTITION", "PARTITION BY stands first in a window: [PARTITION BY g ROWS 4 SLIDE 1]"),
    (r"\[ .*(RANGE|ROWS) \d+ @ ,", "between the size and SLIDE stands no comma: [RANGE 60 SLIDE 60]"),
    (r"\[[^]]*SLIDE \d+ @ (WHERE|GROUP|,|\)|;|$)", "the window isn't closed: ] is missing"),
    (r"\[ .*RANGE \d+( SLIDE \d+)? @ (?!{keyword})[a-z]\w*", "times have no unit: sizes are numbers alone, in whatever unit the file's times are"),
    (r"\[ .*ROWS \d+( SLIDE \d+)? @ (?!{keyword})[a-z]\w*", "a window of rows is [ROWS 4 SLIDE 1]: numbers alone"),
    (r"\[ .*(RANGE|ROWS|SLIDE) @ -", "sizes and slides are 1 at least"),
    (r"\[ .*(RANGE|ROWS|SLIDE) @ ", "{before} wants a number"),
    (r"\[ @ ", "a window is [RANGE 60 SLIDE 60], [ROWS 4 SLIDE 1] or [PARTITION BY g ROWS 4 SLIDE 1]"),
    (r"FROM (\w+ \[[^]]*\] , )?\w+ @ (RANGE|ROWS|PARTITION|SLIDE)", "a window stands in square brackets: {at} .. is [{at} ..]"),
    (r"(WHERE|GROUP BY) .*@ \[", "the window stands behind its stream: FROM S [RANGE 60 SLIDE 60] WHERE .. GROUP BY .."),
    (r"\[[^]]*@ $", "the window isn't closed: ] is missing"),
    # FROM and what follows
    (r"FROM \w+ @ \.", "FROM names a stream of a declaration, not a file: {usage}"),
    (r"FROM .*@ (INNER|LEFT|RIGHT|FULL|OUTER|CROSS|NATURAL|JOIN|ON|USING)|(INNER|LEFT|RIGHT|FULL|OUTER|CROSS|NATURAL|JOIN) @ ",
     "there is no JOIN: a join is FROM A [..], B [..] WHERE A.k = B.k"),
    (r"FROM @ (?P<word>{keyword})", "FROM wants the name of a stream, and {word} is a keyword"),
    (r"FROM \w+( \[[^]]*\])? , \w+( \[[^]]*\])? @ ,", "FROM names two streams at most"),
    (r"@ HAVING|HAVING @ ", "there is no HAVING: put the condition into the WHERE of a second query (saber chain)"),
    (r"@ ORDER|ORDER @ ", "there is no ORDER BY: lines come in order of windows, then of groups; the answer can go through sort"),
    (r"@ (LIMIT|OFFSET|FETCH)|(LIMIT|OFFSET) @ ", "there is no LIMIT: the answer can go through head"),
    (r"@ (UNION|EXCEPT|INTERSECT)", "there is no {at}: each query is a file of its own, and saber many answers up to eight"),
    (r"@ (EMIT|INTO|WITHIN|WINDOW|EVERY|OUTPUT|QUALIFY)", "there is no {at}: windows stand behind their stream, FROM S [RANGE 60 SLIDE 60]"),
    (r"(GROUP|PARTITION) @ ", "behind {before} stands BY"),
    (r"GROUP BY [\w ,.]*@ WHERE", "WHERE stands before GROUP BY"),
    (r"GROUP BY (.* , )?@ \d", "GROUP BY takes columns by their names"),
    (r"BY .*@ [-+*(]|BY (.* , )?@ (\d|-)", "GROUP BY and PARTITION BY take columns alone, no arithmetic: make a column of it before"),
    # conditions
    (r"WHERE (.* )?\( [^()]*\w @ ($|;|GROUP)", "the parenthesis of the condition isn't closed"),
    (r" = @ =", "equality is written with one ="),
    (r" = @ [<>]", "write >= or <=, the = behind"),
    (r"> @ =|< @ =|< @ >|! @ =", "the two signs stand together: >=, <=, <>"),
    (r"> @ <", "inequality is written <>"),
    (r"WHERE .*@ BETWEEN", "there is no BETWEEN: a >= 1 AND a <= 5"),
    (r"WHERE .*@ (NOT )?IN|WHERE .*IN @ \(", "there is no IN: a = 1 OR a = 2"),
    (r"WHERE .*@ (NOT )?(LIKE|RLIKE|ILIKE|REGEXP|IS|EXISTS)", "there is no {at}: numbers are compared by = <> < <= > >="),
    (r"(=|<>|<=?|>=?) ((?!AND |OR |NOT )[\w.*+-]+ )+@ (=|<>|<=?|>=?) ", "one comparison at a time: 1 < a AND a < 5"),
    (r"WHERE (.* )?(WHERE|AND|OR|NOT|\() @ (AND|OR|GROUP|\)|;|$)|WHERE @ (AND|OR|GROUP|\)|;|$)", "a condition is missing here, such as a = 1"),
    (r"(WHERE|WHERE .*(AND|OR|NOT|\()) [\w.+* -]+ @ (AND|OR|GROUP|\)|;|$)", "a condition compares: a = 1; a column or a number alone is none"),
    # stream words
    (r"(?P<word>[RID]STREAM) @ SELECT", "{word} wants parentheses round the SELECT: {word} (SELECT ..)"),
    (r"(?P<word>[RID]STREAM) \( @ STREAM", "declarations stand before {word}"),
    (r"[RID]STREAM \( @ [RID]STREAM", "a query has one stream word"),
    (r"SELECT @ (?P<word>[RID]STREAM)", "{word} stands before SELECT: {word} (SELECT ..)"),
    (r"(?P<word>[RID]STREAM) \( ((?! \) ).)*@ (;|$)", "the parenthesis behind {word} isn't closed"),
    # names
    (r"(SELECT|,|WHERE|AND|OR|NOT|BY|[-+*=<>(.]) @ (STREAM|GROUP|BY|ROWS|RANGE|SLIDE|PARTITION|[RID]STREAM)",
     "{at} is a keyword, which can't be the name of a column: the STREAM before can call it otherwise"),
    (r"FROM (.* , )?\w+( \[[^]]*\])? @ (?!{keyword})[a-z_]\w*", "{at} isn't taken here: streams have no second names, and what may follow is a window, WHERE or GROUP BY"),
    (r"SELECT .*[\w)] @ (?!{keyword})(?P<second>[a-z_]\w*) (,|FROM)", "before {second} a comma or a sign is missing; items have no second names"),
]

BAD_BYTE = [
    (r"^@ \ufeff", "the file begins with a byte order mark: write it without (tail -c +4 FILE)"),
    (r"^@ .?\0|^@ \ufffd\ufffd", "the file isn't plain text: UTF-16? iconv -f UTF-16 -t UTF-8 FILE"),
    (r"^@ \x1f", "the file is compressed: run it as <(zcat FILE)"),
    (r"^@ #", "a query has no comments: take the text behind # out"),
    (r"^@ \{", "this looks like JSON, and a query is wanted here: {usage}"),
    (r"^@ [\"']?\w", "these look like rows, and a query is wanted here: {usage}"),
    (r"^(?!STREAM|SELECT|[RID]STREAM|CREATE|WITH|INSERT)[^@]+@", "a query begins with the declaration of its stream: STREAM S(time, a, b);"),
    (r"@ //|@ /\*", "a query has no comments: take the text out"),
    (r"@ #", "a query has no comments: take the text behind # out"),
    (r"(TUMBLE|HOP|SESSION)\w* \(.*@ |INTERVAL @ ['\"]", "windows stand behind their stream, in the unit of the file's times: FROM S [RANGE 60 SLIDE 60]"),
    (r"FROM @ ['\"`]", "FROM names a stream of a declaration, not a file: {usage}"),
    (r"BY [\w ,.]*@ [/%]", "GROUP BY and PARTITION BY take columns alone, no arithmetic: make a column of it before"),
    (r"\[[^]]*@ ['\"]", "sizes are numbers alone, in whatever unit the file's times are"),
    (r"@ !", "inequality is written <>, and negation NOT"),
    (r"@ &", "write AND"),
    (r"@ \|", "write OR; texts are not put together"),
    (r"@ ['‘’]", "there are no texts, values are integers: give each text a number before (saber rows)"),
    (r"@ [\"“”`]", "names and values stand without quotes"),
    (r"\) @ /", "there is no division: ask for both, and divide what comes"),
    (r"@ /|@ ÷", "there is no division: multiply the other side, or divide before or after"),
    (r"@ %", "there is no remainder: make a column of it before"),
    (r"@ \^", "there is no power: a * a"),
    (r"@ [×·]", "multiplication is written *"),
    (r"@ ≠", "inequality is written <>"),
    (r"@ [≤≥]", "write <= or >="),
    (r"@ [–—−]", "this dash is no minus: write -"),
    (r"@ [\u00a0\u2000-\u200b\u202f\ufeff]", "this blank is none of ASCII's: write a plain one"),
    (r"@ \?", "there are no parameters: write the number"),
    (r"@ :", "there are no casts and no parameters: each value is an integer"),
    (r"@ [^\x00-\x7f]", "names are of the letters A to Z and a to z, digits and _"),
    (r"@ ", "this sign is none of the language: it has ( ) [ ] , ; . * + - = <> < <= > >="),
]

JOIN = r"FROM \w+( \[[^]]*\])? ,"
SHAPE = [
    (r"[RID]STREAM \( .*@ \[ PARTITION", "PARTITION BY stands under no stream word (ISTREAM, DSTREAM, RSTREAM)"),
    (JOIN + r".*@ \[ PARTITION|@ \[ PARTITION [^]]*\] ,", "the windows of a join are [ROWS ..] or [RANGE ..], without PARTITION BY"),
    (r"@ \[ PARTITION", "PARTITION BY stands in a query with COUNT(*), SUM, MIN or MAX: a selection of rows has no window"),
    (JOIN + r".*@ \[", "both windows of a join are of ROWS or both of RANGE, and have the same SLIDE"),
    (r"@ \[", "a selection of rows has no window: leave it out, ask for an aggregate, or put the SELECT under a stream word, ISTREAM (..)"),
    (r"@ (COUNT|SUM|MIN|MAX) \(", "a join answers pairs, without aggregates: a second query can count or sum them (saber chain)"),
    (r"@ GROUP BY", "a join answers pairs, without groups: a second query can group them (saber chain)"),
    (JOIN + r".*@ \w|@ \w+ ,", "each stream of a join has a window: {at} [RANGE 60 SLIDE 60]"),
    (r"[RID]STREAM \(.*@ \w", "under a stream word each stream has a window: {at} [RANGE 60 SLIDE 60]"),
    (r"@ \w", "a query with an aggregate or GROUP BY has a window behind its stream: {at} [RANGE 60 SLIDE 60] or {at} [ROWS 4 SLIDE 1]"),
]

NOT_GROUPED = [
    (r"@ (- )?\d+ (,|FROM)", "in a query with an aggregate or GROUP BY an item is an aggregate or a column of GROUP BY, and no number"),
    (r"@ (?P<item>\w+( \. \w+)?) (,|FROM)", "{item} is no column of GROUP BY or PARTITION BY: add it to GROUP BY, or put it inside SUM, MIN or MAX"),
    (r"@ ", "in a query with an aggregate or GROUP BY an item is an aggregate or a column of GROUP BY, without arithmetic"),
]

DUPLICATE = [
    (r"BY [\w ,.]*@ ", "this column stands there already, with its stream's name or without"),
    (r"FROM .*@ ", "FROM names {at} twice: declare the columns again under a second name, and give the file twice"),
    (r"STREAM @ ", "a stream {at} is declared already"),
    (r"@ ", "the stream has a column {at} already"),
]

TOO_MANY = [
    (r"PARTITION BY [^]]*@ ", "PARTITION BY takes 8 columns at most"),
    (r"GROUP BY .*@ ", "GROUP BY takes 8 columns at most"),
    (r"SELECT .*@ ", "SELECT takes 32 items at most: saber many answers further ones in a query of their own"),
    (r"@ STREAM", "a query declares 8 streams at most"),
    (r"@ ", "a stream has 32 columns at most: leave out what isn't asked for, with cut"),
]

WINDOW_RANGE = [
    (r"@ 0+\b", "sizes and slides are 1 at least"),
    (r"RANGE (\d+ SLIDE )?@ ", "sizes and slides are 2^40 = 1099511627776 at most: give the times in a larger unit, such as millis for nanos"),
    (r"@ ", "sizes and slides are 2^40 = 1099511627776 at most"),
]

OVERLAP = [
    (JOIN + r".*@ \d+ SLIDE [1-9]|@ \d+ SLIDE [1-9]\d* \] ,", "a row would lie in {lies} windows, in a join 1024 at most: a larger SLIDE"),
    (r"@ \d+ SLIDE [1-9]", "a row would lie in {lies} windows, 65536 at most: a larger SLIDE"),
]

UNKNOWN_COLUMN = [
    (r"@ (NULL|TRUE|FALSE)", "there are no nulls and no truth values: each value is an integer"),
    (r"@ ", "{undeclared}"),
]

TABLES = {
    "syntax": SYNTAX,
    "bad byte": BAD_BYTE,
    "shape": SHAPE,
    "not grouped": NOT_GROUPED,
    "duplicate name": DUPLICATE,
    "too many": TOO_MANY,
    "window range": WINDOW_RANGE,
    "overlap": OVERLAP,
    "unknown column": UNKNOWN_COLUMN,
    "unknown stream": [
        (r"FROM .*@ \w+ (?!\.)|FROM (\w+ \[[^]]*\] , )?@ ", "no STREAM declares {at} ({declared})"),
        (r"@ ", "{at} is no stream of FROM"),
    ],
    "ambiguous": [
        (r"FROM (?P<one>\w+) [^,]*, (?P=one)\b", "FROM names {one} twice: declare the columns again under a second name, and give the file twice"),
        (r"@ ", "both streams have a column {at}: write it with its stream's name, {from_one}.{at} or {from_two}.{at}"),
    ],
    "too long": [(r"", "a query has 65,536 bytes at most")],
    "number range": [(r"@ ", "a number is 2^63 - 1 = 9223372036854775807 at most, with - before it 2^63")],
    "depth": [(r"@ ", "a condition has at most 64 NOT and ( inside one another")],
    "expression too wide": [(r"@ ", "columns may be any 64-bit integers, so from here the value could pass 2^126: fewer factors, or a column made before")],
    "sum too wide": [(r"@ ", "columns may be any 64-bit integers, so the sum could pass 128 bits: make a column of the product before, and SUM it")],
}

# What is said where the text can't be read again, or no pattern fits.
PLAIN = {
    "syntax": "a word or sign stands here that the grammar doesn't allow (docs/LANGUAGE.md has it, man saber-query too)",
    "bad byte": "a sign stands here that the language doesn't have",
    "shape": "parts of the query don't go together: a selection of rows has no window, aggregates and joins have one for each stream",
    "not grouped": "an item beside an aggregate is a column of GROUP BY",
    "duplicate name": "a name stands here a second time",
    "too many": "a query has at most 8 streams, 32 columns of one, 32 items and 8 columns of GROUP BY",
    "window range": "sizes and slides are 1 to 2^40",
    "overlap": "a row lies in 65536 windows at most, of a join in 1024",
    "unknown column": "no stream of FROM has this column",
    "unknown stream": "no such stream is declared, or FROM doesn't name it",
    "ambiguous": "both streams have this column: write it with its stream's name",
    "number range": "a number is 2^63 - 1 at most",
}

# A chain and `many` judge whole queries, which is told as byte 0.
WHOLE = {
    ("chain", 1): "the first query of a chain has windows, without PARTITION BY: their numbers are the times of the second one",
    ("chain", 2): "the second query of a chain has one stream in FROM, its rows being the lines of the first one's answer",
    ("many", 0): "each query of many has one stream in FROM, of as many columns as that of the first query",
}
