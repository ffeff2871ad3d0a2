#!/usr/bin/env python3
"""Writes the files of the folder personnel. Two are exports of the same contracts, of 30 June 2024 and of 31 December 2024.
One is a table of pay rates. A personnel system writes such files, with semicolons, a byte order mark, dates as dd.mm.yyyy, and
separators of thousands. Last days are included, and an open end is empty or 31.12.9999. The seed is fixed, so each run writes
the same bytes."""

import random
from datetime import date, timedelta
from pathlib import Path

FOLDER = Path(__file__).parent / "personnel"
CONTRACTS = 2_000
FIRST_DAY, FIRST_EXPORT, SECOND_EXPORT = date(2015, 1, 1), date(2024, 6, 30), date(2024, 12, 31)
OPEN = date(9999, 12, 31)
LAST_NAMES = ["Andersson", "Berger", "Costa", "Dubois", "Eriksen", "Fischer", "García", "Huber", "Ivanova", "Jansen", "Kovács", "López", "Müller", "Novák", "O'Brien", "Popescu"]
FIRST_NAMES = ["Ana", "Björn", "Clara", "David", "Eva", "Farid", "Grace", "Hugo", "Ines", "Jonas", "Karin", "Luca", "Maja", "Noah"]
DEPARTMENTS = ["Sales", "Research", "Works; day shift", "Works; night shift", "Human resources", "Purchasing", "Logistics", "IT"]
GRADES = ["G1", "G2", "G3", "G4", "G5", "G6"]
HEADER = "Employee ID;Last name;First name;Department;Grade;Weekly hours;Salary;Manager ID;Valid from;Valid to"

draw = random.Random(20240630)


def written(day):
    """A first or last day as text. An open end is empty or 31.12.9999."""
    if day == OPEN:
        return draw.choice(["", "", "31.12.9999"])
    return day.strftime("%d.%m.%Y")


def quoted(field):
    return f'"{field}"' if ";" in field else field


def amount(cents):
    return f"{cents // 100:,}.{cents % 100:02}"


class Contract:
    """A contract: its fields, and its first and last day."""

    def __init__(self, employee, names, department, grade, manager, first, last):
        self.employee, self.names, self.department, self.grade, self.manager = employee, names, department, grade, manager
        self.first, self.last = first, last
        self.hours = draw.choice([38_50, 38_50, 38_50, 30_00, 19_25])
        self.salary = (180_000 + 55_000 * GRADES.index(grade) + draw.randrange(40_000)) * self.hours // 38_50

    def line(self):
        fields = [str(self.employee), *self.names, quoted(self.department), self.grade, amount(self.hours), amount(self.salary), str(self.manager), written(self.first), written(self.last)]
        return ";".join(fields)


def names():
    return draw.choice(LAST_NAMES), draw.choice(FIRST_NAMES)


def heads():
    """The contracts of the director, who is her own manager, and of the head of each department. Two heads have no contract for
    some weeks. In these weeks the contracts of their staff name a manager without a contract."""
    director = 10_001
    yield Contract(director, ("Lindqvist", "Sofia"), "Human resources", "G6", director, FIRST_DAY, OPEN)
    for place, department in enumerate(DEPARTMENTS):
        head, called = 10_010 + place, names()
        if department in ("Research", "Logistics"):
            left = date(2021, 3, 15) + timedelta(days=100 * place)
            yield Contract(head, called, department, "G6", director, FIRST_DAY, left)
            yield Contract(head, called, department, "G6", director, left + timedelta(days=30 + 8 * place), OPEN)
        else:
            yield Contract(head, called, department, "G6", director, FIRST_DAY, OPEN)


def staff(employee, most):
    """The contracts of an employee, at most `most`: one after another, a few after a gap, a few that overlap the one before."""
    called, place = names(), draw.randrange(len(DEPARTMENTS))
    grade = draw.randrange(4)
    first = FIRST_DAY + timedelta(days=draw.randrange(2_800))
    for number in range(min(most, draw.randint(2, 5))):
        last = first + timedelta(days=draw.randint(180, 900))
        if last >= FIRST_EXPORT or number == 4:
            last = OPEN
        if draw.random() < 0.15:
            place = draw.randrange(len(DEPARTMENTS))
        yield Contract(employee, called, DEPARTMENTS[place], GRADES[grade], 10_010 + place, first, last)
        if last == OPEN:
            return
        grade = min(grade + (draw.random() < 0.3), len(GRADES) - 1)
        days = 1
        if draw.random() < 0.04:
            days = draw.randint(20, 120)
        elif draw.random() < 0.03:
            days = -draw.randint(10, 60)
        first = last + timedelta(days=days)


def contracts():
    """All contracts, in the order of employees."""
    made = list(heads())
    employee = 11_000
    while len(made) < CONTRACTS:
        employee += draw.randint(1, 4)
        made += staff(employee, CONTRACTS - len(made))
    return made


def change(made):
    """The contracts of the second export. Until then some employees left, some got another grade, and some came."""
    changed = []
    for contract in made:
        changed.append(contract)
        if contract.last != OPEN or contract.employee < 11_000:
            continue
        day = FIRST_EXPORT + timedelta(days=draw.randint(1, 170))
        if draw.random() < 0.04:
            contract.last = day
        elif draw.random() < 0.05 and contract.grade != GRADES[-1]:
            contract.last = day
            grade = GRADES[GRADES.index(contract.grade) + 1]
            changed.append(Contract(contract.employee, contract.names, contract.department, grade, contract.manager, day + timedelta(days=1), OPEN))
    for employee in range(14_001, 14_021):
        place = draw.randrange(len(DEPARTMENTS))
        changed.append(Contract(employee, names(), DEPARTMENTS[place], "G1", 10_010 + place, FIRST_EXPORT + timedelta(days=draw.randint(1, 170)), OPEN))
    return changed


def rates():
    """The monthly pay of each grade, for each year. The last year has an open end."""
    for place, grade in enumerate(GRADES):
        cents = 190_000 + 55_000 * place
        for year in range(2015, 2025):
            first = date(year, 1, 1)
            last = OPEN if year == 2024 else date(year, 12, 31)
            yield f"{10 * (place + 1)};{grade};{amount(cents)};{written(first)};{written(last)}"
            cents += cents * draw.randint(10, 35) // 1_000


def write(name, lines):
    (FOLDER / name).write_bytes(("\ufeff" + "".join(line + "\r\n" for line in lines)).encode())


FOLDER.mkdir(exist_ok=True)
made = contracts()
write("contracts.csv", [HEADER, *(contract.line() for contract in made)])
write("rates.csv", ["Code;Grade;Monthly pay;Valid from;Valid to", *rates()])
write("contracts-december.csv", [HEADER, *(contract.line() for contract in change(made))])
