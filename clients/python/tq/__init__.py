"""Valid-time queries from Python, with the program `tq`.

    import tq

    answer = tq.ask({"emp": "emp.csv"}, "VALIDTIME SELECT name FROM emp")
    for name, start, end in answer.rows:
        print(name, start, end)

    with tq.Session({"emp": "emp.csv"}) as session:
        session.start("emp", 40, 4, "dan", "toys")
        session.publish()
        print(session.ask("VALIDTIME SELECT name FROM emp").rows)

The package needs only the standard library, and the program `tq` on the PATH or as the argument `program`. Tables are paths
of table files, `Table`s, or data frames of pandas. An end `forever` is None. With `dates=True` starts and ends are
`datetime.date`. A refusal raises `Refused`.
"""

from tq.answers import Answer
from tq.questions import ask
from tq.refusals import Refused
from tq.sessions import Session
from tq.tables import Table

__all__ = ["Answer", "Refused", "Session", "Table", "ask"]
__version__ = "0.1.0"
