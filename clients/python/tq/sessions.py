"""Sessions: they record changes, and run queries as of any earlier state."""

import contextlib
import csv
import io
import subprocess
import tempfile

from tq.answers import Answer, instant_of, keys_of
from tq.refusals import refusal_of, refusal_of_line
from tq.tables import options_of, text_of


class Session:
    """A session of the program. Use it with `with`, or call `close`.

    tables   maps names to paths of table files, `Table`s or data frames of pandas
    dates    whether starts and ends are dates
    program  the program `tq`

    Raises `Refused` if a file is invalid. All changes are lost when the session ends.
    """

    def __init__(self, tables, *, dates=False, program="tq"):
        self.dates = dates
        self._errors = tempfile.TemporaryFile()
        with tempfile.TemporaryDirectory(prefix="tq-") as room:
            words = [program, "session", *(["--dates"] if dates else []), *options_of(tables, room)]
            pipes = {"stdin": subprocess.PIPE, "stdout": subprocess.PIPE, "stderr": self._errors}
            self._running = subprocess.Popen(words, **pipes)
            try:
                # After the reply all files are loaded, so the temporary ones can be removed.
                self.count = self.publish()
            except BaseException:
                self.close()
                raise

    def __enter__(self):
        return self

    def __exit__(self, *_):
        self.close()

    def close(self):
        """Ends the session."""
        with contextlib.suppress(BrokenPipeError):
            self._running.stdin.close()
        self._running.wait()
        self._running.stdout.close()
        self._errors.close()

    def start(self, table, at, *values):
        """Starts a row with these values. Returns its number in the table."""
        return self._number(f"start {table} {text_of(at)} {record_of(values)}", "row")

    def end(self, table, at, *values):
        """Ends the first open row with these values that started earlier. Returns its number in the table."""
        return self._number(f"end {table} {text_of(at)} {record_of(values)}", "row")

    def publish(self):
        """Makes all starts and ends so far visible. Returns how many events are published."""
        self.count = self._number("publish", "published")
        return self.count

    def ask(self, statement, *, count=None, workers=1, ints=()):
        """Answers a statement as of the first `count` published events, or as of all.

        Values are texts, because a reply has no kinds. Those of the columns `ints` become numbers.
        """
        reply = self._reply(f"ask {self.count if count is None else count} {workers} {statement}")
        columns = keys_of(self._record())
        numbers = [name in ints for name in columns[:-2]]
        rows = []
        for _ in range(int(reply.removeprefix("answer "))):
            *values, start, end = self._record()
            shown = [int(value) if is_number else value for value, is_number in zip(values, numbers)]
            rows.append((*shown, instant_of(start, self.dates), instant_of(end, self.dates)))
        return Answer(columns, rows)

    def _number(self, line, word):
        return int(self._reply(line).removeprefix(f"{word} "))

    def _reply(self, line):
        """Sends a line. Returns the first line of the reply, or raises `Refused`."""
        if "\n" in line or "\r" in line:
            raise ValueError("a line of a session cannot hold a line break")
        try:
            self._running.stdin.write(line.encode() + b"\n")
            self._running.stdin.flush()
        except BrokenPipeError:
            raise self._ended() from None
        reply = self._line()
        if reply.startswith("refused "):
            raise refusal_of_line(reply.rstrip("\n"))
        return reply.rstrip("\n")

    def _line(self):
        line = self._running.stdout.readline().decode()
        if not line:
            raise self._ended()
        return line

    def _record(self):
        """One record of CSV, which takes several lines if a text has line breaks."""
        text = self._line()
        while text.count('"') % 2 == 1:
            text += self._line()
        return next(csv.reader(io.StringIO(text, newline="")))

    def _ended(self):
        """The refusal with which the session ended."""
        status = self._running.wait()
        self._errors.seek(0)
        errors = self._errors.read().decode(errors="replace")
        return refusal_of(errors or f"the session ended with status {status}")


def record_of(values):
    """The values as one record of CSV."""
    text = io.StringIO(newline="")
    csv.writer(text, lineterminator="").writerow([str(value) for value in values])
    return text.getvalue()
