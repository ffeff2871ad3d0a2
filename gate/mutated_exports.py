#!/usr/bin/env python3
"""Imports mutated exports, and compares the result with what this script reads from the same bytes by itself.

    gate/mutated_exports.py PROGRAM [NUMBER] [--seed SEED]

The script takes some records of the exports in examples/personnel, or random bytes, and changes them: bytes, spans, line
ends, quotes, fields. NUMBER is how many files it makes, 300 by default. The same SEED makes the same files. PROGRAM is any
build of tq.

The program imports each file three times: plainly, with --all and with --skip-invalid. The expected output is the table file
that docs/reference/files.md defines, the fault of the first invalid record with its line, or all of these faults. With
--skip-invalid it is also the CSV file of the invalid records. The program must end with status 0 or 1 and write exactly this.
Some files are imported with --encoding latin1.

Each import is a case. Each failed case has one line, and its file is kept. The last line is 'N passed, M failed'."""

import argparse
import random
import re
import subprocess
import sys
import tempfile
from concurrent.futures import ThreadPoolExecutor
from dataclasses import dataclass
from datetime import date, timedelta
from pathlib import Path

FOLDER = Path(__file__).resolve().parent.parent / "examples" / "personnel"
SECONDS = 60
SHOWN = 20
BOM = b"\xef\xbb\xbf"
LF, CR, QUOTE = 10, 13, 34
INPUT, OUTPUT, REJECTED = "export.csv", "table.csv", "rejected.csv"
RESERVED = {b"validtime", b"period", b"select", b"from", b"where", b"group", b"by", b"and", b"or", b"not", b"count", b"sum", b"as", b"except", b"all"}
MIDNIGHT = b" 00:00:00"


# ---- records


def records_of(data, delimiter):
    """The records of a CSV file, each with the line of its first byte and its fields."""
    data = data.removeprefix(BOM)
    found, fields, field = [], [], bytearray()
    line, begun, state = 1, 1, "between"
    for byte in data:
        if state == "between" and byte not in (CR, LF):
            begun, state = line, "start"
        if state == "start" and byte == QUOTE:
            state = "quoted"
        elif state == "quoted":
            if byte == QUOTE:
                state = "quote"
            else:
                field.append(byte)
        elif state == "quote" and byte == QUOTE:
            field.append(byte)
            state = "quoted"
        elif state != "between":
            if byte == delimiter:
                fields.append(bytes(field))
                field, state = bytearray(), "start"
            elif byte in (CR, LF):
                found.append((begun, [*fields, bytes(field)]))
                fields, field, state = [], bytearray(), "between"
            else:
                field.append(byte)
                state = "plain"
        line += byte == LF
    if state != "between":
        found.append((begun, [*fields, bytes(field)]))
    return found


def row_text(fields, delimiter):
    """A record as CSV. A field is quoted only if necessary."""
    special = {delimiter, QUOTE, CR, LF}
    texts = [b'"' + field.replace(b'"', b'""') + b'"' if special & set(field) else field for field in fields]
    return (bytes([delimiter]).join(texts) or b'""') + b"\n"


# ---- the expected table file


@dataclass
class Options:
    """How a file is imported. `kinds` maps a column of numbers to its number of decimals, and one of texts to None."""

    key: bytes | None
    kinds: dict
    latin1: bool = False
    delimiter: int = ord(";")
    begin: bytes = b"Valid from"
    end: bytes = b"Valid to"
    open: tuple = (b"", b"31.12.9999")

    def words(self):
        words = ["--delimiter", chr(self.delimiter), "--date-format", "dd.mm.yyyy", "--from", self.begin.decode(), "--to", self.end.decode(), "--inclusive", "--thousands", ","]
        for text in self.open:
            words += ["--open", text.decode()]
        words += ["--encoding", "latin1"] if self.latin1 else []
        words += ["--number"] if self.key is None else ["--key", self.key.decode()]
        for name, places in self.kinds.items():
            words += ["--text", name.decode()] if places is None else ["--decimal", f"{name.decode()}={places}"]
        return words


@dataclass
class Fault(Exception):
    """A fault, in the words of the program."""

    text: bytes


def units_of(field, places):
    """The number in units of 10^-places, or None if the field is not such a number."""
    number = field.removeprefix(b"-")
    whole, _, fraction = number.partition(b".")
    if not whole or number == whole + b"." or len(fraction) > places:
        return None
    if b"," in whole:
        if whole[:1] == b"," or any((byte == ord(",")) != ((len(whole) - 1 - place) % 4 == 3) for place, byte in enumerate(whole)):
            return None
    digits = whole.replace(b",", b"") + fraction + b"0" * (places - len(fraction))
    if not re.fullmatch(rb"[0-9]+", digits):
        return None
    units = int(digits)
    if field[:1] == b"-":
        return -units if units <= 2**63 else None
    return units if units < 2**63 else None


def kinds_of(header, records):
    """For each column the most decimals of its values if all are numbers, else None."""
    kinds = [0] * len(header)
    for _, fields in records:
        for place, field in enumerate(fields[: len(header)]):
            if kinds[place] is not None:
                places = len(field.removeprefix(b"-").partition(b".")[2])
                kinds[place] = None if units_of(field, places) is None else max(kinds[place], places)
    return kinds


def name_of(field):
    """The name that a field of the header suggests."""
    words = [word.lower() for word in re.split(rb"[^A-Za-z0-9]+", field) if word]
    name = b"_".join(words)
    return b"_" + name if re.match(rb"[0-9]", name) else name


def plan_of(header, found, options):
    """The columns of the table file: place in the record, name, and number of decimals."""
    given = sorted(options.kinds, key=lambda name: options.kinds[name] is None)
    for name in [*given, options.begin, options.end, *([options.key] if options.key else [])]:
        if name not in header:
            raise Fault(b"`" + shown(name) + b"` is not in the header")
    places = [header.index(options.key)] if options.key else []
    places += [place for place, field in enumerate(header) if field not in (options.key, options.begin, options.end)]
    columns = []
    for place in places:
        name = name_of(header[place])
        if not name or len(name) > 64 or name in RESERVED:
            raise Fault(b"`" + shown(header[place]) + b"` gives no valid name: use --rename OLD=NEW or --without NAME")
        if any(name == other for _, other, _ in columns) or options.key is None and name == b"row":
            raise Fault(b"`" + name[:60] + (b".." if len(name) > 60 else b"") + b"` is the name of two columns: use --rename OLD=NEW or --without NAME")
        if len(columns) >= (15 if options.key is None else 16):
            raise Fault(b"there are more than 16 columns: use --columns or --without")
        is_key = header[place] == options.key
        columns.append((place, name, options.kinds.get(header[place], 0 if is_key else found[place])))
    return columns


def shown(value):
    return value[:60] + b".." if len(value) > 60 else value


def day_of(field):
    """The date of a field, or None."""
    field = field.removesuffix(MIDNIGHT)
    digits = re.fullmatch(rb"([0-9]{2})\.([0-9]{2})\.([0-9]{4})", field)
    try:
        return date(int(digits[3]), int(digits[2]), int(digits[1])) if digits else None
    except ValueError:
        return None


def text_of(value):
    """The text. An invalid one raises a `Fault`."""
    try:
        value.decode()
    except UnicodeDecodeError:
        raise Fault(b" is not valid UTF-8: use --encoding latin1 if the file is in Latin-1") from None
    if len(value) > 1000:
        raise Fault(b" has more than 1,000 bytes")
    return value


def number_of(value, places):
    """The number in units, as text. An invalid one raises a `Fault`."""
    units = units_of(value, places)
    if units is not None:
        return str(units).encode()
    if places == 0:
        raise Fault(b" is not a whole number of 64 bits: use --decimal NAME=PLACES or --text NAME")
    raise Fault(b" is not a number of 64 bits with at most " + str(places).encode() + (b" decimal" if places == 1 else b" decimals"))


def period_of(start_text, end_text, options):
    """The start and the end as texts, or the place of the fault, 0 or 1, and its text."""
    start = day_of(start_text)
    if start is None:
        return 0, b" is not a date in the format dd.mm.yyyy"
    if end_text in options.open:
        return start.isoformat().encode(), b"forever"
    last = day_of(end_text)
    if last is None or last == date.max:
        return 1, b" is not a date in the format dd.mm.yyyy, nor an open end: use --open TEXT for those"
    end = last + timedelta(days=1)
    return (start.isoformat().encode(), end.isoformat().encode()) if start < end else (1, b" is not after the start")


def row_of(header, columns, number, fields, options):
    """The fields of the table file for a record. An invalid record raises a `Fault`."""
    if len(fields) != len(header):
        raise Fault(f"the header has {len(header)} fields, but this record has {len(fields)}".encode())
    row = [] if options.key else [str(number).encode()]
    for place, _, places in columns:
        try:
            row.append(text_of(fields[place]) if places is None else number_of(fields[place], places))
        except Fault as fault:
            raise Fault(header[place] + b" `" + shown(fields[place]) + b"`" + fault.text) from None
    ends = [header.index(options.begin), header.index(options.end)]
    first, second = period_of(fields[ends[0]], fields[ends[1]], options)
    if isinstance(first, int):
        place = ends[first]
        raise Fault(header[place] + b" `" + shown(fields[place]) + b"`" + second)
    return [*row, first, second]


# ---- the expected output


def hidden_len(data):
    if data[0] < 32 or data[0] == 127:
        return 1
    if data[:1] == b"\xc2" and data[1:2] and 0x80 <= data[1] <= 0x9F or data[:2] == b"\xd8\x9c":
        return 2
    marks = {b"\xe2\x80\x8e", b"\xe2\x80\x8f", b"\xef\xbf\xbe", b"\xef\xbf\xbf"}
    marks |= {b"\xe2\x80" + bytes([last]) for last in range(0xAA, 0xAF)} | {b"\xe2\x81" + bytes([last]) for last in range(0xA6, 0xAA)}
    return 3 if data[:3] in marks else 0


def printable(data):
    """The text with a question mark for each hidden character but the tab."""
    text, place = bytearray(), 0
    while place < len(data):
        hidden = hidden_len(data[place : place + 3])
        text.append(ord("?") if hidden and data[place] != 9 else data[place])
        place += max(hidden, 1)
    return bytes(text)


def line_text(text):
    return b"tq: import " + printable(INPUT.encode() + text) + b"\n"


@dataclass
class Expected:
    """The expected output: the table file of the valid records, the lines about the invalid ones, and these as CSV; or the
    fault of the file."""

    table: bytes = b""
    lines: tuple = ()
    rejected: bytes = b""
    records: int = 0
    fault: bytes | None = None


def expected_of(data, options):
    if options.latin1:
        data = data.decode("latin-1").encode()
    records = records_of(data, options.delimiter)
    if not records:
        return Expected(fault=line_text(b", there is no header"))
    (line, header), *records = records
    try:
        columns = plan_of(header, kinds_of(header, records), options)
    except Fault as fault:
        return Expected(fault=line_text(f", line {line}: ".encode() + fault.text))
    names = ([] if options.key else [b"row:int"]) + [name + (b":text" if places is None else b":int") for _, name, places in columns]
    table, lines, rejected = [row_text([*names, b"from", b"to"], ord(","))], [], [row_text(header, options.delimiter)]
    for number, (line, fields) in enumerate(records, 1):
        try:
            table.append(row_text(row_of(header, columns, number, fields, options), ord(",")))
        except Fault as fault:
            lines.append(line_text(f", line {line}: ".encode() + fault.text))
            rejected.append(row_text(fields, options.delimiter))
    return Expected(b"".join(table), tuple(lines), b"".join(rejected), len(records))


def run(program, words, folder):
    done = subprocess.run([program, "import", *words, "--output", OUTPUT, INPUT], cwd=folder, stdin=subprocess.DEVNULL, capture_output=True, timeout=SECONDS)
    left = sorted(path.name for path in folder.iterdir() if path.name != INPUT)
    files = {name: (folder / name).read_bytes() for name in left}
    for name in left:
        (folder / name).unlink()
    return done, files


def difference(done, files, wanted, mode):
    """How an import differs from the expected one, or None."""
    if wanted.fault is not None:
        status, table, rejected, err = 1, None, None, wanted.fault
    elif mode == "skip" or not wanted.lines:
        status, table, rejected, err = 0, wanted.table, wanted.rejected if mode == "skip" else None, None
    elif mode == "all":
        number = f": {len(wanted.lines)} of {wanted.records} records {'is' if len(wanted.lines) == 1 else 'are'} invalid".encode()
        status, table, rejected, err = 1, None, None, b"".join(wanted.lines) + line_text(number)
    else:
        status, table, rejected, err = 1, None, None, wanted.lines[0]
    if done.returncode != status:
        return f"status {done.returncode}, not {status}: {done.stderr[-200:]!r}"
    if done.stdout:
        return f"standard output is {done.stdout[:100]!r}"
    if err is not None and done.stderr != err:
        return f"standard error is {done.stderr[:300]!r}, not {err[:300]!r}"
    if mode == "skip" and status == 0:
        count = len(wanted.lines)
        end = f"  {count} invalid record{'' if count == 1 else 's'} in {REJECTED}\n".encode()
        if not done.stderr.endswith(end):
            return f"standard error ends with {done.stderr[-100:]!r}, not {end!r}"
    made = {name: content for name, content in ((OUTPUT, table), (REJECTED, rejected)) if content is not None}
    if files != made:
        names = sorted(set(files) ^ set(made)) or [name for name in made if files[name] != made[name]]
        return f"the files {names} are not as expected"
    return None


# ---- mutations


SPECIAL = [b'"', b'""', b";", b"\r", b"\n", b"\r\n", b"\n\n", b"\r\r", b"\x00", b"\xff", b"\xc3", BOM, b"\xe2\x80\x8e", b",", b".", b"-", b" ", MIDNIGHT, b"\t"]
FIELDS = [
    b"", b"0", b"-0", b"9", b"9.", b".9", b"1.2.3", b"1,23", b"1,234", b"1,234.5", b",123", b"-1,000.25", b"1.005",
    b"9223372036854775807", b"9223372036854775808", b"-9223372036854775808", b"-9223372036854775809", b"92233720368547758.07",
    b"31.12.9999", b"30.12.9999", b"31.02.2020", b"29.02.2020", b"29.02.2021", b"01.01.0001", b"00.00.0000", b"1.1.2020",
    b"01.01.2020 00:00:00", b"01.01.2020 00:00:01", b"2020-01-01", b"forever", "é".encode(), b"\xe9", b"x" * 1000, b"x" * 1001,
    b'"a;b"', b'"a\nb"', b'"a\r\nb', b'a"b', b'"a"b"', b"Valid from", b"from", b"\x1b[2J",
]


def mutated(data, chance):
    """The bytes after one mutation."""
    at = chance.randrange(len(data) + 1)
    to = min(len(data), at + chance.choice([0, 1, 1, 2, 5, 20, 80]))
    match chance.randrange(10):
        case 0:
            return data[:at] + bytes([chance.randrange(256)]) + data[at + 1 :]
        case 1:
            return data[:at] + data[to:]
        case 2:
            return data[:at] + chance.choice(SPECIAL) + data[at:]
        case 3:
            return data[:to] + data[at:to] + data[to:]
        case 4:
            lines = data.split(b"\n")
            chance.shuffle(lines) if chance.random() < 0.2 else lines.insert(chance.randrange(len(lines) + 1), b"")
            return b"\n".join(lines)
        case 5:
            return data[:at] if chance.random() < 0.3 else data
        case 6:
            return data.replace(b"\r\n", b"\n").replace(b"\n", chance.choice([b"\r\n", b"\r", b"\n", b"\n\n", b"\r\n\r\n"]))
        case 7:
            return data[:at] + chance.randbytes(chance.randrange(1, 12)) + data[to:]
        case _:
            lines = data.split(b"\n")
            place = chance.randrange(len(lines))
            fields = lines[place].split(b";")
            fields[chance.randrange(len(fields))] = chance.choice(FIELDS)
            return b"\n".join([*lines[:place], b";".join(fields), *lines[place + 1 :]])


def export_of(exports, chance):
    """A mutated export, and the options of its import."""
    name = chance.choice(sorted(exports))
    header, *lines = exports[name]
    rows = chance.sample(lines, min(len(lines), chance.choice([0, 1, 3, 10, 40])))
    data = b"\n".join([header, *rows]) + chance.choice([b"\n", b""])
    if chance.random() < 0.05:
        alphabet = chance.choice([bytes(range(256)), b';"\r\na1.,'])
        data = bytes(chance.choice(alphabet) for _ in range(chance.randrange(400)))
        data = data if chance.random() < 0.5 else header + b"\n" + data
    for _ in range(chance.choice([0, 1, 1, 2, 3, 6])):
        data = mutated(data, chance)
    is_rates = name == "rates.csv"
    key = chance.choice([b"Code" if is_rates else b"Employee ID", None])
    amount = b"Monthly pay" if is_rates else b"Salary"
    kinds = chance.choice([{}, {amount: 2}, {amount: 1, b"Grade": None}, {amount: 3, b"Grade": 0}, {amount: None}])
    if chance.random() < 0.2:
        return data.removeprefix(BOM), Options(key, kinds, latin1=True)
    return data, Options(key, kinds)


def check(program, exports, seed, number):
    """Imports the file with this number. Returns the mode and the difference of each failed import, the file, and its options."""
    chance = random.Random(f"{seed} {number}")
    data, options = export_of(exports, chance)
    wanted = expected_of(data, options)
    faults = []
    with tempfile.TemporaryDirectory() as room:
        folder = Path(room)
        (folder / INPUT).write_bytes(data)
        for mode, words in (("plain", []), ("all", ["--all"]), ("skip", ["--skip-invalid", REJECTED])):
            try:
                fault = difference(*run(program, [*options.words(), *words], folder), wanted, mode)
            except subprocess.TimeoutExpired:
                fault = f"it did not end within {SECONDS} seconds"
            if fault:
                faults.append((mode, fault))
    return faults, data, options


def main():
    parser = argparse.ArgumentParser()
    parser.add_argument("program")
    parser.add_argument("number", nargs="?", type=int, default=300)
    parser.add_argument("--seed", type=int, default=1)
    given = parser.parse_args()
    program = str(Path(given.program).resolve())
    exports = {path.name: path.read_bytes().rstrip(b"\n").split(b"\n") for path in FOLDER.glob("*.csv")}
    failed, kept = 0, None
    with ThreadPoolExecutor() as pool:
        results = pool.map(lambda number: check(program, exports, given.seed, number), range(given.number))
        for number, (faults, data, options) in enumerate(results):
            failed += len(faults)
            if faults and failed <= SHOWN:
                kept = kept or Path(tempfile.mkdtemp(prefix="mutated-exports-"))
                (kept / f"{number}.csv").write_bytes(data)
                for mode, fault in faults:
                    print(f"FAILED: {kept}/{number}.csv, {mode}, {options.words()}: {fault}")
    print(f"{3 * given.number - failed} passed, {failed} failed")
    return 1 if failed else 0


if __name__ == "__main__":
    sys.exit(main())
