"""Reads what the program writes: answers with their logs. Anything else is no answer."""

import re
from collections.abc import Iterator
from dataclasses import dataclass
from enum import Enum

# No number of an answer has more than 13 digits.
_NUMBER = r'(?:0|[1-9][0-9]{0,12})'


class Kind(Enum):
    """What an answer claims."""

    OPTIMAL = 'optimal'
    FEASIBLE = 'feasible'
    INFEASIBLE = 'infeasible'


class RecordKind(Enum):
    """How a record closes its path."""

    SPLIT = 'S'
    LEAF = 'L'
    PRICED = 'P'
    DOMINATED = 'D'


@dataclass(frozen=True)
class Record:
    """A record of a log: its path as group numbers from 1, and what stands behind it.

    `rest` are the prices of a priced record, in sixtieths of a loss unit, and the other path of a
    dominated one. `line` is the line of the answer, from 1.
    """

    kind: RecordKind
    path: tuple[int, ...]
    rest: tuple[int, ...]
    line: int


@dataclass(frozen=True)
class Answer:
    """An answer. Slab numbers and orders count from 1; the loss is in steps."""

    kind: Kind
    text: str
    loss: int = 0
    plan: tuple[int, ...] = ()
    spent: int = 0
    order: int = 0
    log: tuple[Record, ...] | None = None


def _numbers(line: str, word: str) -> tuple[int, ...] | None:
    """The canonical numbers behind a word; None where the line isn't of that form."""
    if not re.fullmatch(rf'{word}(?: {_NUMBER})*', line):
        return None
    return tuple(map(int, line.split(' ')[1:]))


def _one(line: str, word: str) -> int | None:
    """The one number behind a word."""
    found = _numbers(line, word)
    return found[0] if found is not None and len(found) == 1 else None


def read_answer(text: str, orders: int) -> Answer | None:
    """The answer for so many orders that a text is; None where it isn't in the grammar."""
    lines = text.split('\n')
    kind = next((kind for kind in Kind if lines[0] == kind.value), None)
    body = iter(lines[1:])
    if kind is Kind.INFEASIBLE:
        order = _one(next(body, ''), 'order')
        if order is None or not 1 <= order <= orders or next(body, '').rstrip() != 'end':
            return None
        return Answer(kind, text, order=order)
    return None if kind is None else read_plan(kind, text, body, orders)


def read_plan(kind: Kind, text: str, body: Iterator[str], orders: int) -> Answer | None:
    """The answer whose first line was read; the others follow."""
    loss, plan = _one(next(body, ''), 'loss'), _numbers(next(body, ''), 'plan')
    if loss is None or plan is None or len(plan) != orders:
        return None
    if any(not 1 <= slab <= orders for slab in plan):
        return None
    line = next(body, '')
    if kind is Kind.FEASIBLE:
        spent = _one(line, 'spent')
        if spent is None or next(body, '').rstrip() != 'end':
            return None
        return Answer(kind, text, loss, plan, spent)
    if line.rstrip() == 'end':
        return Answer(kind, text, loss, plan)
    log = read_log(line, body, orders)
    return None if log is None else Answer(kind, text, loss, plan, log=log)


def read_log(head: str, body: Iterator[str], orders: int) -> tuple[Record, ...] | None:
    """The records of a log whose first line is `head`, at line 4 of its answer."""
    if not re.fullmatch(rf'log 1 {_NUMBER}', head):
        return None
    records: list[Record] = []
    for number, line in enumerate(body, 5):
        if line.rstrip() == 'end':
            return tuple(records) if len(records) == int(head.split(' ')[2]) else None
        record = read_record(line, number, orders)
        if record is None or (records and record.path <= records[-1].path):
            return None
        records.append(record)
    return None


def read_record(line: str, number: int, orders: int) -> Record | None:
    """One record; None where the line is none."""
    if not re.fullmatch(rf'[SLPD] {_NUMBER}(?: -?{_NUMBER})*', line):
        return None
    words = line.split(' ')
    kind, length = RecordKind(words[0]), int(words[1])
    values = tuple(map(int, words[2:]))
    behind = {RecordKind.PRICED: orders - length, RecordKind.DOMINATED: length}.get(kind, 0)
    if length > orders or len(values) != length + behind:
        return None
    groups = values if kind is not RecordKind.PRICED else values[:length]
    if any(not 1 <= group <= orders for group in groups):
        return None
    return Record(kind, values[:length], values[length:], number)


def plan_answer(loss: int, plan: list[int]) -> str:
    """The text of a plan that claims nothing but its loss, for `check`."""
    slabs = ''.join(f' {slab}' for slab in plan)
    return f'feasible\nloss {loss}\nplan{slabs}\nspent 0\nend\n'
