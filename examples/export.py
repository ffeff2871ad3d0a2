#!/usr/bin/env python3
"""Writes contracts.csv, an export as a personnel system makes it. It has semicolons, a byte order mark, dates as dd.mm.yyyy,
included last days, empty open ends, and separators of thousands. Each run writes the same bytes."""

from datetime import date, timedelta
from pathlib import Path

NAMES = ["Berger", "Costa", "Dubois", "Eriksen", "Fischer", "García", "Huber", "Ivanova", "Jansen", "Kovács"]
DEPARTMENTS = ["Sales", "Research", "Works; night shift", "Works; day shift", "Human resources"]


def day(number):
    return (date(2015, 1, 1) + timedelta(days=number)).strftime("%d.%m.%Y")


def quoted(field):
    return f'"{field}"' if ";" in field else field


lines = ["Employee ID;Last name;Cost centre;Department;Salary;Valid from;Valid to"]
for employee in range(1, 61):
    start = employee * 37 % 900
    for contract in range(1 + employee % 5 + employee % 3):
        length = 180 + (employee * 53 + contract * 97) % 700
        salary = 240_000 + (employee * 7919 + contract * 12_345) % 460_000
        last = employee % 4 != 0 and contract == employee % 5 + employee % 3
        lines.append(";".join([
            str(1000 + employee),
            NAMES[employee % len(NAMES)],
            f"{employee % 7 + 10}-{contract % 3}",
            quoted(DEPARTMENTS[(employee + contract) % len(DEPARTMENTS)]),
            f"{salary // 100:,}.{salary % 100:02}",
            day(start),
            "" if last else day(start + length - 1),
        ]))
        start += length + (30 if contract % 4 == 3 else 0)
text = "\ufeff" + "".join(line + "\r\n" for line in lines)
Path(__file__).with_name("contracts.csv").write_bytes(text.encode())
