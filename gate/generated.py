"""Cases of the program with files, input or statements that Python generates: large ones, and many of one form.

All other cases are scripts in gate/cases/. Expected output follows from docs/formats.md and docs/semantics.md, or from how
a table is generated, and never from what the program printed.
"""

from script import Case

EMP = b"""emp:int,name:text,dept:text,from,to
1,ann,toys,10,20
1,ann,toys,20,30
2,bob,toys,15,25
3,cat,food,5,forever
"""
ALL_NAMES = "VALIDTIME SELECT name FROM emp"
SMALL = b"k:int,v:text,from,to\n"


def over(command, name, tables, words, **wanted):
    """A command over tables of these names and bytes."""
    files = {f"{table}.csv": content for table, content in tables}
    options = [word for table, _ in tables for word in ("--table", f"{table}={table}.csv")]
    return Case(name, [command, *options, *words], files=files, **wanted)


def ask(name, tables, statement, more=(), **wanted):
    """A query over tables of these names and bytes."""
    return over("ask", name, tables, [*more, statement], **wanted)


def check(name, tables, more=(), **wanted):
    """A check of tables of these names and bytes."""
    return over("check", name, tables, more, **wanted)


def pipes():
    """Two of several tables name one pipe. The first of them gets all its bytes, and the second is empty. The first table is
    a long file, so the thread that reads it comes to the pipe late."""
    both = "VALIDTIME SELECT a.k, b.v FROM a, b WHERE a.k = b.k"
    files = {"a.csv": b"k:int,from,to\n1,0,9\n2,3,5\n", "b.csv": SMALL + b"2,x,4,8\n1,y,2,forever\n"}
    files["long.csv"] = SMALL + 16_000 * (b"1," + 999 * b"x" + b",0,1\n")
    paths = ("long.csv", "/dev/stdin", "/dev/stdin", "a.csv")
    for workers in ("2", "16"):
        words = ["ask", *(f"--table=t{n}={path}" for n, path in enumerate(paths)), "--workers", workers, both]
        err = b"tq: load BadHeader table 2 record 1\n"
        yield Case(f"a pipe that two tables name, with {workers} workers", words, err=err, status=1, files=files, stdin=EMP)


def large():
    """A file and an answer of megabytes, a profile of many rows, and a file that is larger than the memory.

    Row i of the first table is valid from i to i + 10, so no other row has its key or its period.
    """
    rows = b"".join(b"%d,%d,%d\n" % (i, i, i + 10) for i in range(200_000))
    table = [("t", b"k:int,from,to\n" + rows)]
    yield ask("a file and an answer of megabytes", table, "VALIDTIME SELECT k FROM t", out=b"k,from,to\n" + rows)
    many = [("c", SMALL + 12345 * b"7,x,0,1\n")]
    expected = b"""  window         [0 - forever)
  coalesce  (rows 12345)
    filter  (rows 12345)
      scan c  (table 12345, kept 12345, keys from 7 to 7, rows 12345)
  workers        1
  partitioning   one pass
  pieces         0
  loading        SECONDS
  answering      SECONDS
  printing       SECONDS
"""
    statement = "VALIDTIME SELECT v FROM c WHERE k = 7"
    yield ask("a profile of many rows", many, statement, ["--explain"], out=b"v,from,to\n" + 12345 * b"x,0,1\n", err=expected)
    yield Case(
        "less memory than the file needs",
        ["ask", "--table", "t=zeros", ALL_NAMES],
        err=b"tq: OutOfMemory\n",
        status=1,
        files={"zeros": 200_000_000},
        memory=100_000_000,
    )


def partitionings():
    """Profiles of four workers. Row i has key i, one of 50 names, and is valid from i to i + 10."""
    count = 12_345
    table = [("c", b"k:int,v:text,from,to\n" + b"".join(b"%d,v%d,%d,%d\n" % (i, i % 50, i, i + 10) for i in range(count)))]
    scan = "scan c  (table 12345, kept 12345, rows 12345)"
    run = """  workers        4
  partitioning   {}
  pieces         {}
  loading        SECONDS
  answering      SECONDS
  printing       SECONDS
"""
    join = f"""  window         [0 - forever)
  coalesce  (rows 12345)
    join  (c.k = c.k, rows 12345)
      {scan}
      {scan}
"""
    keys = b"k,from,to\n" + b"".join(b"%d,%d,%d\n" % (i, i, i + 10) for i in range(count))
    statement = "VALIDTIME SELECT a.k FROM c a, c b WHERE a.k = b.k"
    expected = (join + run.format("by value", 20)).encode()
    yield ask("a profile of a join in partitions", table, statement, ["--explain", "--workers=4"], out=keys, err=expected)
    counts = f"""  window         [0 - forever)
  coalesce  (rows 12345)
    aggregate  (by c.v, rows 12345)
      {scan}
"""
    by_name = sorted((b"v%d" % (i % 50), i) for i in range(count))
    out = b"v,count,from,to\n" + b"".join(b"%s,1,%d,%d\n" % (name, i, i + 10) for name, i in by_name)
    statement = "VALIDTIME SELECT v, COUNT(*) FROM c GROUP BY v"
    expected = (counts + run.format("by value, in buckets", 55)).encode()
    yield ask("a profile of counts in buckets", table, statement, ["--explain", "--workers=4"], out=out, err=expected)
    periods = f"""  window         [0 - forever)
  coalesce  (rows 20)
    aggregate  (rows 35)
      scan c  (table 12345, kept 12345, rows 197520)
"""
    ends = [(i + 1, i, i + 1) for i in range(9)] + [(9 - i, count + i, count + i + 1) for i in range(9)]
    lines = b"".join(b"%d,%d,%d\n" % row for row in sorted([*ends, (10, 9, count)]))
    out = b"count,from,to\n0,%d,forever\n" % (count + 9) + lines
    expected = (periods + run.format("by time", 20)).encode()
    yield ask("a profile of periods", table, "VALIDTIME SELECT COUNT(*) FROM c", ["--explain", "--workers=4"], out=out, err=expected)


def pieces():
    """Files of megabytes, which several threads read in pieces. Each row has its own number, so a lost or moved row shows."""
    count = 150_000
    rows = [b"%d,v%06d,%d,%d\n" % (i, i, i, i + 3) for i in range(count)]
    plain = b"".join(rows)
    # Each record has a text with lines that look like records.
    quoted = b"".join(b'%d,"v%06d\n7,x,1,2\n8,y",%d,%d\n' % (i, i, i, i + 3) for i in range(count))
    expected = b"v,from,to\n" + b"".join(b"v%06d,%d,%d\n" % (i, i, i + 3) for i in range(count))
    expected_quoted = b"v,from,to\n" + b"".join(b'"v%06d\n7,x,1,2\n8,y",%d,%d\n' % (i, i, i + 3) for i in range(count))
    question = "VALIDTIME SELECT v FROM t"
    for workers in ("1", "2", "3", "4", "16"):
        more = ["--workers", workers]
        files = (
            ("plain", SMALL + plain, expected),
            ("ended by carriage returns and line feeds", (SMALL + plain).replace(b"\n", b"\r\n"), expected),
            ("marked", b"\xef\xbb\xbf" + SMALL + plain, expected),
            ("with an empty line in front", b"\n" + SMALL + plain, expected),
            ("without a last line end", (SMALL + plain)[:-1], expected),
            ("with lines within quotes", SMALL + quoted, expected_quoted),
        )
        for kind, content, out in files:
            yield ask(f"a long file {kind} by {workers} workers", [("t", content)], question, more, out=out)
        both = "VALIDTIME SELECT a.v, b.v FROM a, b WHERE a.k = b.k"
        pairs = b"v,v,from,to\n" + b"".join(b"v%06d,v%06d,%d,%d\n" % (i, i, i, i + 3) for i in range(count))
        yield ask(f"two long files by {workers} workers", [("a", SMALL + plain), ("b", SMALL + b"".join(reversed(rows)))], both, more, out=pairs)
        err = b"tq: load BadInt table 0 record %d\n"
        for place in (0, count // 2, count - 1):
            spoilt = SMALL + b"".join(rows[:place]) + b"x" + b"".join(rows[place:])
            yield ask(f"record {place + 2} of a long file is invalid, by {workers} workers", [("t", spoilt)], question, more, err=err % (place + 2), status=1)
        missing = "VALIDTIME SELECT w FROM t"
        yield ask(f"no such column of a long file, by {workers} workers", [("t", SMALL + plain)], missing, more, err=b"tq: plan UnknownColumn\n", status=1)
    for workers in ("1", "4"):
        words = ["ask", "--workers", workers, "--table", "t=zeros", question]
        yield Case(f"a file that is too large by {workers} workers", words, err=b"tq: cannot read zeros\n", status=1, files={"zeros": 2**30 + 1})


def changes_of(rows):
    """For each value, in order, the instants at which its rows begin or end, each with the number of rows from then on."""
    changes = {}
    for value, start, end in rows:
        of_value = changes.setdefault(value, {})
        of_value[start] = of_value.get(start, 0) + 1
        of_value[end] = of_value.get(end, 0) - 1
    for value in sorted(changes):
        there = 0
        for instant, change in sorted(changes[value].items()):
            there += change
            yield value, instant, there


def layers_of(rows):
    """The rows of an answer: for each value and each n, a row for each maximal period with at least n copies."""
    begun = {}
    for value, instant, there in changes_of(rows):
        open_since = begun.setdefault(value, [])
        while len(open_since) > there:
            yield value, open_since.pop(), instant
        open_since += [instant] * (there - len(open_since))


def counts_of(rows):
    """The number of rows of each value, for each maximal period in which it does not change."""
    before = {}
    for value, instant, there in changes_of(rows):
        since, count = before.get(value, (instant, 0))
        if there != count:
            if count:
                yield value, count, since, instant
            before[value] = (instant, there)


def among_threads():
    """Answers that are long enough to be partitioned by value, from files that are long enough to be cut at line ends."""
    rows = [(b"n%03d" % (i * 7919 % 1000), b"d%d" % (i % 7), i * 37 % 5000, i * 37 % 5000 + 40 + i % 50) for i in range(40_000)]
    plain = b"".join(b"%d,%s,%s,%d,%d\n" % (i, *row) for i, row in enumerate(rows))
    quoted = b"".join(b'%d,"%s",%s,%d,%d\n' % (i, *row) for i, row in enumerate(rows))
    header = b"k:int,name:text,dept:text,from,to\n"
    names = sorted(layers_of((name, start, end) for name, _, start, end in rows))
    counts = sorted(counts_of((dept, start, end) for _, dept, start, end in rows))
    expected_names = b"name,from,to\n" + b"".join(b"%s,%d,%d\n" % row for row in names)
    expected_counts = b"dept,count,from,to\n" + b"".join(b"%s,%d,%d,%d\n" % row for row in counts)
    for workers in ("1", "2", "3", "4", "7", "16"):
        for form, content in (("plain", plain), ("quoted", quoted)):
            table, more = [("t", header + content)], ["--workers", workers]
            yield ask(f"names of a {form} file by {workers} workers", table, "VALIDTIME SELECT name FROM t", more, out=expected_names)
        yield ask(
            f"counts by {workers} workers", table, "VALIDTIME SELECT dept, COUNT(*) FROM t GROUP BY dept", more, out=expected_counts
        )
    spoilt = [("t", header + plain + b"1,x,y,3,2\n" + plain)]
    for workers in ("1", "4"):
        yield ask(
            f"an invalid record of a long file by {workers} workers",
            spoilt,
            ALL_NAMES,
            ["--workers", workers],
            err=b"tq: load BadPeriod table 0 record 40002\n",
            status=1,
        )


def sessions():
    """Thousands of rows that start one after another: row i is valid from i on."""
    emp = ["session", "--table", "emp=examples/emp.csv"]
    rows = b"".join(b"start emp %d %d,n%d,d\n" % (i, i, i) for i in range(100, 5100))
    expected = b"".join(b"row %d\n" % i for i in range(4, 5004))
    yield Case("a session: thousands of rows", emp, stdin=rows + b"publish\n", out=expected + b"published 5007\n")
    count = b"ask %d 3 VALIDTIME SELECT COUNT(*) FROM emp WHERE name <> 'cat'\n"
    yield Case(
        "a session: a count as of thousands of rows",
        emp,
        stdin=rows + b"publish\n" + count % 5007 + count % 7,
        out=expected
        + b"published 5007\n"
        + b"answer 5005\ncount,from,to\n0,0,10\n0,30,100\n1,10,15\n1,25,30\n1,100,101\n2,15,25\n"
        + b"".join(b"%d,%d,%d\n" % (i, i + 99, i + 100) for i in range(2, 5000))
        + b"5000,5099,forever\n"
        + b"answer 5\ncount,from,to\n0,0,10\n0,30,forever\n1,10,15\n1,25,30\n2,15,25\n",
    )


def summary(rows, first, last, overlapping, meeting):
    """The output of a check for a table t without open rows."""
    return (
        f"table t\n  columns      k:int v:text\n  rows         {rows}\n  open         0\n  first start  {first}\n"
        f"  last change  {last}\n  overlapping  {overlapping}\n  meeting      {meeting}\n"
    ).encode()


def checks():
    """Checks of long texts, of many rows, and of more invalid records than a check lists."""
    long = "x" * 900
    alike = "".join(f"1,{long}{letter},{start},{start + 2}\n" for start in range(0, 40, 2) for letter in "ab").encode()
    yield check("a check of long texts with a common beginning", [("t", SMALL + alike)], out=summary(40, 0, 40, 0, 38))
    many = b"".join(b"%d,x,%d,%d\n" % (n % 1000, n, n + 1500) for n in range(20000, 0, -1))
    for workers in ("1", "4"):
        out = summary(20000, 1, 21500, 19000, 0)
        yield check(f"a check of many rows by {workers} workers", [("t", SMALL + many)], ["--workers", workers], out=out)
    good = b"1,x,0,1\n"
    for count, rest in ((100, b""), (101, b"t: 1 more record is invalid\n"), (350, b"t: 250 more records are invalid\n")):
        content = SMALL + good + count * b"1,x,7,7\r\n\r\n" + good
        out = b"".join(b"t record %d, line %d: from `7` is not before to `7`\n" % (3 + n, 3 + 2 * n) for n in range(100)) + rest
        yield check(f"{count} invalid records", [("t", content)], out=out, err=b"tq: load BadPeriod table 0 record 3\n", status=1)


def pointed(line, at):
    """A line of a statement with a caret below the character at this place. It shows at most 72 characters of a line."""
    front, rest = line[:at], line[at:]
    before, after = min(len(front), 72 - min(len(rest), 36)), min(len(rest), 72 - min(len(front), 36))
    left, right = (".." if shown < len(part) else "" for shown, part in ((before, front), (after, rest)))
    shown = front[len(front) - before :]
    below = " " * len(left) + "".join(it if it == "\t" else " " for it in shown)
    return f"  {left}{shown}{rest[:after]}{right}\n  {below}^\n".encode()


def long_statements():
    """Statements with long lines and an invalid character: at the beginning, in the middle and at the end."""
    emp = ["ask", "--explain", "--table", "emp=examples/emp.csv"]
    expected = b"  invalid character\n"
    for part in ("AND name <> 'bob' ", "AND name <> 'b\u00f6b' ", "AND name <> '\u20ac\U0001f600' ", "AND\tname <> 'bob'\t"):
        for before, after in ((0, 8), (1, 8), (2, 8), (4, 4), (8, 2), (8, 1), (8, 0)):
            begin = "VALIDTIME SELECT name FROM emp WHERE emp = 1 " + before * part
            line = begin + "#" + after * part
            at = len(begin.encode())
            for asked, place in ((line, at), ("\n" + 90 * " " + "\n" + line + "\n" + 90 * " ", at + 92)):
                err = b"tq: statement BadByte at %d\n" % place + pointed(line, len(begin)) + expected
                yield Case(f"{part!r} {before} times before and {after} times after an invalid character", [*emp, asked], err=err, status=1)
    for length in range(69, 77):
        for at in (0, 30, 36, 37, length - 37, length - 36, length - 1):
            line = " " * at + "#" + " " * (length - at - 1)
            err = b"tq: statement BadByte at %d\n" % at + pointed(line, at) + expected
            yield Case(f"an invalid character at {at} of {length}", [*emp, line], err=err, status=1)


def table():
    """All cases of this file."""
    makers = (pipes, large, partitionings, pieces, among_threads, sessions, checks, long_statements)
    return [case for maker in makers for case in maker()]
