"""Rehearsal sheets from Python, by ctypes over a shared library.

`hosts/python/run SHEET` builds the shared library from the static one and prints the ends of a sheet as the program `ends` does,
after each end a line with a path to it: `path` and the states, or `path`, `refused` and 43 where there are more than 65,536 of them.
"""

from __future__ import annotations

import ctypes
import enum
import os
import sys
from collections.abc import Sequence
from fractions import Fraction
from typing import Union

U8, U16, U64, SIZE = ctypes.c_uint8, ctypes.c_uint16, ctypes.c_uint64, ctypes.c_size_t

# What is taken for the bytes of a sheet; a `str` by its UTF-8.
Text = Union[bytes, bytearray, memoryview, str]
# Arrays that are lent: rule words, and words of 64 bits.
Rules = ctypes.Array[ctypes.c_uint16]
Words = ctypes.Array[ctypes.c_uint64]

# A call record: action, state, round. An answer record: call record number, final state, rule number, 16 evidence words, round.
CALL_WORDS, ANSWER_WORDS = 3, 20
# The same in tables that two parties share, without rounds; and the words kept beside them.
SHARED_CALL_WORDS, SHARED_ANSWER_WORDS, KEPT_WORDS = 2, 19, 44
# Records that a table has at most, whatever is lent.
MOST_RECORDS = 65536

# What each refusal means, in the words of the Rust host.
MEANINGS = {
    10: "sheet longer than 65,536 bytes",
    11: "a byte other than TAB, LF, 33 to 126, a comment's SPACE or the CR of CR LF",
    12: "the last line is not ended by LF",
    13: "no record word, or one out of order",
    14: "a missing name, or a field that is no name or step",
    15: "a name defined before, or twice in start",
    16: "a name undefined or of the wrong kind",
    17: "too many fluents, actions, rules or steps",
    18: "no start or no goal",
    19: "too few rule words lent",
    20: "over 64 fluents or actions",
    21: "rule words not a multiple of 18, or over 256 rules",
    22: "a bad rule word",
    23: "a bad goal",
    24: "a bit of a state at or above the fluent count",
    25: "over 1,024 starts, or under 4 result words for each",
    26: "results of a class that are bad, or do not fit its ends",
    27: "the output has fewer than 2 words for each fluent and 4 more",
    30: "the tables have too little room for the run",
    31: "the list has fewer places than there are ends",
    34: "the list of calls has fewer places than the call table has room for records",
    35: "a list of calls that is short, or has a number of no call",
    40: "a record count over its room",
    41: "no such answer record",
    42: "a bad call record, or an answer that is not justified",
    43: "the list has fewer places than the path has states",
    50: "fewer bytes lent than the text has",
    60: "a record of over 63 steps",
    61: "a table of under 4,096 words",
    62: "a recorded step that is a call, or of no fluent",
    70: "a name that is a fluent in one sheet and an action in the other",
    80: "the output has fewer places than there are words or states",
    81: "words that are not one per fluent for each block of 64 states",
    82: "a bit set past the last state",
    90: "the limits of both parties are more than the tables have room for",
    91: "the tables of two parties, or what is kept beside them, are not as they were left",
}


class Party(enum.IntEnum):
    """One of two parties with the same book, by the number of its goal among the actions of call records."""

    FIRST = 64
    SECOND = 65


def rule_words(sheet: Sheet, rules: Rules) -> int:
    """How many words the rules of a sheet have: no fewer may be lent."""
    if len(rules) < 18 * sheet.rules:
        raise ValueError("fewer rule words than the sheet has rules")
    return 18 * sheet.rules


def bytes_of(text: Text) -> bytes:
    """The bytes of a sheet. What ASCII has not, the reader refuses with 11."""
    if isinstance(text, str):
        return text.encode("utf-8", "surrogatepass")
    if isinstance(text, (bytes, bytearray, memoryview)):
        return bytes(text)
    raise TypeError(f"a sheet is bytes, bytearray, memoryview or str, not {type(text).__name__}")


class Shown(ctypes.Structure):
    """A result of the library, printed with its fields."""

    def __repr__(self) -> str:
        fields = ((name, getattr(self, name)) for name, _ in self._fields_)
        shown = (f"{name}={list(value) if isinstance(value, ctypes.Array) else value}" for name, value in fields)
        return f"{type(self).__name__}({', '.join(shown)})"


class Sheet(Shown):
    """What a sheet says beside its rule words."""

    _fields_ = [(name, U64) for name in ("refusal", "line", "fluents", "actions", "rules", "start", "goal_len")]
    _fields_ += [("goal", U16 * 16)]


class Span(Shown):
    """A part of a sheet."""

    _fields_ = [("at", SIZE), ("len", SIZE)]


class Written(Shown):
    """The refusal, 0 for none, its line, and the length of the text written."""

    _fields_ = [(name, U64) for name in ("refusal", "line", "length")]


class Merged(Shown):
    """The refusal, 0 for none, the sheet and the line of a sheet's own fault, and the length of the text written."""

    _fields_ = [(name, U64) for name in ("refusal", "sheet", "line", "length")]


class Part(Shown):
    """A part of one of two sheets: 1, 2, or 0 for none."""

    _fields_ = [("sheet", U64), ("at", SIZE), ("len", SIZE)]


class Run(Shown):
    """The refusal, 0 for none, the counts, and how many rounds added something."""

    _fields_ = [(name, U64) for name in ("refusal", "ends", "calls", "answers", "rounds")]


class Found(Shown):
    """The refusal, 0 for none, 1 where there is such a call, and its record."""

    _fields_ = [(name, U64) for name in ("refusal", "found", "row")]


class Start(Shown):
    """What a class run tells of a start: the refusal, 0 for none, and the counts. It tells no rounds."""

    _fields_ = [(name, U64) for name in ("refusal", "ends", "calls", "answers")]


class States(Shown):
    """The refusal, 0 for none, and how many states the path has."""

    _fields_ = [(name, U64) for name in ("refusal", "states")]


class Archived(Shown):
    """The refusal, 0 for none, and how many words or states are written."""

    _fields_ = [(name, U64) for name in ("refusal", "count")]


class Marked(Shown):
    """The refusal, 0 for none, and 1 for a yes."""

    _fields_ = [(name, U64) for name in ("refusal", "yes")]


class Opened(Shown):
    """The refusal, 0 for none, and the words kept from then on."""

    _fields_ = [("refusal", U64), ("kept", U64 * KEPT_WORDS)]


class Shared(Shown):
    """The refusal, 0 for none, a party's own counts, and the words kept from then on."""

    _fields_ = [(name, U64) for name in ("refusal", "ends", "calls", "answers")] + [("kept", U64 * KEPT_WORDS)]


class Refused(Exception):
    """A numbered refusal and what it means, with its line for 13 to 17, and of a merge the sheet at fault. With 31 `finished` has the
    run's counts, its calls, its answers and its list of calls; of a party's run the counts alone."""

    def __init__(self, number: int, line: int = 0, finished: tuple | None = None, sheet: int = 0):
        self.number, self.line, self.finished, self.sheet = number, line, finished, sheet
        self.meaning = MEANINGS.get(number, "unknown")
        place = [f"sheet {sheet}"] * (sheet > 0) + [f"line {line}"] * (line > 0)
        super().__init__(", ".join([f"refused {number}: {self.meaning}"] + place))

    def __repr__(self) -> str:
        return f"Refused({self})"


class Library:
    """The operations of one shared library."""

    def __init__(self, path: str):
        lib = ctypes.CDLL(path)
        words, longs = ctypes.POINTER(U16), ctypes.POINTER(U64)
        self._read, self._name, self._evaluate = lib.lawhemuri_read, lib.lawhemuri_fluent_name, lib.lawhemuri_evaluate
        self._read.argtypes, self._read.restype = [ctypes.c_char_p, SIZE, words, SIZE], Sheet
        self._name.argtypes, self._name.restype = [ctypes.c_char_p, SIZE, U64], Span
        self._write, self._write.restype = lib.lawhemuri_write, Written
        self._write.argtypes = [ctypes.c_char_p, SIZE, ctypes.POINTER(U8), SIZE]
        self._merge, self._merge.restype = lib.lawhemuri_merge, Merged
        self._merge.argtypes = [ctypes.c_char_p, SIZE] * 2 + [ctypes.POINTER(U8), SIZE]
        self._merged, self._merged.restype = lib.lawhemuri_merged_fluent, Part
        self._merged.argtypes = [ctypes.c_char_p, SIZE] * 2 + [U64]
        self._evaluate.argtypes = [U64, U64, words, SIZE, words, SIZE, U64] + [longs, SIZE] * 4
        self._evaluate.restype = Run
        self._class, self._class.restype = lib.lawhemuri_class, U64
        self._class.argtypes = [U64, U64, words, SIZE, words, SIZE] + [longs, SIZE] * 6
        self._lookup, self._lookup.restype = lib.lawhemuri_lookup, Found
        self._lookup.argtypes = [longs, SIZE, U64, longs, SIZE, U64, U64]
        self._path, self._path.restype = lib.lawhemuri_path, States
        self._path.argtypes = [U64, U64, words, SIZE, words, SIZE] + [longs, SIZE, U64] * 2 + [U64, longs, SIZE]
        self._store, self._store.restype = lib.lawhemuri_store, Archived
        self._store.argtypes = [U64] + [longs, SIZE] * 2
        self._restore, self._restore.restype = lib.lawhemuri_restore, Archived
        self._restore.argtypes = [U64, U64] + [longs, SIZE] * 2
        self._report, self._report.restype = lib.lawhemuri_report, U64
        self._report.argtypes = [U64] + [longs, SIZE] * 3
        self._mark, self._mark.restype = lib.lawhemuri_mark, Marked
        self._mark.argtypes = [U64, U64, words, SIZE, words, SIZE, U64, words, SIZE, longs, SIZE]
        self._open, self._open.restype = lib.lawhemuri_open, Opened
        self._open.argtypes = [U64] * 4 + [longs, SIZE] * 2
        self._share, self._share.restype = lib.lawhemuri_share, Shared
        self._share.argtypes = [ctypes.c_bool, U64, U64, words, SIZE, words, SIZE, U64] + [longs, SIZE] * 4
        self._share_path, self._share_path.restype = lib.lawhemuri_share_path, States
        self._share_path.argtypes = [U64, U64, words, SIZE] + [longs, SIZE] * 3 + [U64, longs, SIZE]

    def read(self, text: Text) -> tuple[Sheet, Rules]:
        """The sheet and its rule words."""
        text = bytes_of(text)
        rules = (U16 * (256 * 18))()
        sheet = self._read(text, len(text), rules, len(rules))
        if sheet.refusal:
            raise Refused(sheet.refusal, sheet.line)
        return sheet, rules

    def fluent_name(self, text: Text, fluent: int) -> bytes:
        """The part of the sheet that defines a fluent."""
        text = bytes_of(text)
        part = self._name(text, len(text), fluent)
        return text[part.at : part.at + part.len]

    def write(self, text: Text, room: int | None = None) -> bytes:
        """The one fixed text of what the sheet says, in a room as long as the sheet if none is given."""
        text = bytes_of(text)
        out = (U8 * (len(text) if room is None else room))()
        written = self._write(text, len(text), out, len(out))
        if written.refusal:
            raise Refused(written.refusal, written.line)
        return bytes(out[: written.length])

    def merge(self, first: Text, second: Text, room: int = 65536) -> bytes:
        """The one fixed text of two sheets together."""
        first, second = bytes_of(first), bytes_of(second)
        out = (U8 * room)()
        merged = self._merge(first, len(first), second, len(second), out, len(out))
        if merged.refusal:
            raise Refused(merged.refusal, merged.line, sheet=merged.sheet)
        return bytes(out[: merged.length])

    def merged_fluent(self, first: Text, second: Text, fluent: int) -> bytes:
        """The part of whichever sheet brought a merged fluent's name first."""
        first, second = bytes_of(first), bytes_of(second)
        part = self._merged(first, len(first), second, len(second), fluent)
        return (second if part.sheet == 2 else first)[part.at : part.at + part.len]

    def evaluate(
        self, sheet: Sheet, rules: Rules, rooms: tuple[int, int, int] = (512, 256, 256), listed: Words | None = None
    ) -> tuple[Run, list[int], Words, Words, Words]:
        """The run's counts, its ends in rising order, the tables of calls and answers, and the list of calls, by which `find` finds one;
        `listed` is the list lent, else one that is long enough."""
        calls, answers, ends = (U64 * (CALL_WORDS * rooms[0]))(), (U64 * (ANSWER_WORDS * rooms[1]))(), (U64 * rooms[2])()
        listed = (U64 * rooms[0])() if listed is None else listed
        run = self._evaluate(
            sheet.fluents, sheet.actions, rules, rule_words(sheet, rules), sheet.goal, sheet.goal_len, sheet.start,
            calls, len(calls), answers, len(answers), ends, len(ends), listed, len(listed),
        )
        if run.refusal:
            raise Refused(run.refusal, finished=(run, calls, answers, listed) if run.refusal == 31 else None)
        return run, ends[: run.ends], calls, answers, listed

    def find(self, calls: Words, count: int, listed: Words, action: int, state: int) -> int | None:
        """The record of a call, None where there is none, by the list of calls that a run left with its table and its count of calls. All
        three may come from anybody: 40 for a count over the table's room, 35 for a list that is short or has a number of no call where it
        is read."""
        if not all(0 <= number < 2**64 for number in (count, action, state)):
            raise ValueError("a count, an action and a state are numbers of 64 bits")
        found = self._lookup(calls, len(calls), count, listed, len(listed), action, state)
        if found.refusal:
            raise Refused(found.refusal)
        return found.row if found.found else None

    def class_run(
        self, sheet: Sheet, rules: Rules, starts: Sequence[int], rooms: tuple[int, int, int] | None = None, words: int | None = None
    ) -> list[tuple[Start, list[int]]]:
        """For each start its refusal, 0 for none, and counts, and its ends in rising order. `rooms` are those of calls, answers and ends,
        512, 256 and 256 for each start if none are given; `words` is the room for the result words. The tables are not handed back."""
        if not all(0 <= start < 2**64 for start in starts):
            raise ValueError("a start is a number of 64 bits")
        rooms = (512, 256, 256 * len(starts)) if rooms is None else rooms
        calls, answers, ends = (U64 * (CALL_WORDS * rooms[0]))(), (U64 * (ANSWER_WORDS * rooms[1]))(), (U64 * rooms[2])()
        results, listed = (U64 * (4 * len(starts) if words is None else words))(), (U64 * rooms[0])()
        refusal = self._class(
            sheet.fluents, sheet.actions, rules, rule_words(sheet, rules), sheet.goal, sheet.goal_len, (U64 * len(starts))(*starts), len(starts),
            results, len(results), calls, len(calls), answers, len(answers), ends, len(ends), listed, len(listed),
        )
        if refusal:
            raise Refused(refusal)
        given, used = [], 0
        for run in (Start(*results[4 * i : 4 * i + 4]) for i in range(len(starts))):
            taken = 0 if run.refusal else run.ends
            given.append((run, ends[used : used + taken]))
            used += taken
        return given

    def path(self, sheet: Sheet, rules: Rules, run: Run, calls: Words, answers: Words, record: int, room: int = 65536) -> list[int]:
        """The states of the execution that an answer record's evidence unfolds to."""
        states = (U64 * room)()
        path = self._path(
            sheet.fluents, sheet.actions, rules, rule_words(sheet, rules), sheet.goal, sheet.goal_len,
            calls, len(calls), run.calls, answers, len(answers), run.answers, record, states, len(states),
        )
        if path.refusal:
            raise Refused(path.refusal)
        return states[: path.states]

    def store(self, fluents: int, states: Sequence[int], out: Words | None = None) -> list[int]:
        """The words of the states by fluent; `out` is the output lent, else one that is long enough."""
        out = (U64 * ((len(states) + 63) // 64 * fluents))() if out is None else out
        stored = self._store(fluents, (U64 * len(states))(*states), len(states), out, len(out))
        if stored.refusal:
            raise Refused(stored.refusal)
        return out[: stored.count]

    def restore(self, fluents: int, count: int, words: Sequence[int], out: Words | None = None) -> list[int]:
        """The states, `count` of them, of words by fluent; `out` is the output lent, else one that is long enough."""
        out = (U64 * count)() if out is None else out
        restored = self._restore(fluents, count, (U64 * len(words))(*words), len(words), out, len(out))
        if restored.refusal:
            raise Refused(restored.refusal)
        return out[: restored.count]

    def report(
        self, fluents: int, results: Sequence[int], ends: Sequence[int], out: Words | None = None
    ) -> tuple[list[Fraction | None], Fraction | None, Fraction | None]:
        """The share of ends in which each fluent holds, the mean number of fluents holding in an end, and the mean ends per unrefused
        start, as fractions; None stands for one over nothing. `out` is the output lent, else one that is long enough."""
        out = (U64 * (2 * fluents + 4))() if out is None else out
        lent = [(U64 * len(words))(*words) for words in (results, ends)]
        refusal = self._report(fluents, lent[0], len(results), lent[1], len(ends), out, len(out))
        if refusal:
            raise Refused(refusal)
        pairs = zip(out[: 2 * fluents + 4 : 2], out[1 : 2 * fluents + 4 : 2])
        *shares, held, mean = [Fraction(n, d) if d else None for n, d in pairs]
        return shares, held, mean

    def mark(self, sheet: Sheet, rules: Rules, record: Sequence[int], table: Words | None = None) -> tuple[bool, Words]:
        """Whether the goal's deductions carry out just the recorded steps, and the table of marks; `table` is the one lent."""
        table = (U64 * 4096)() if table is None else table
        marked = self._mark(
            sheet.fluents, sheet.actions, rules, rule_words(sheet, rules), sheet.goal, sheet.goal_len, sheet.start,
            (U16 * len(record))(*record), len(record), table, len(table),
        )
        if marked.refusal:
            raise Refused(marked.refusal)
        return bool(marked.yes), table

    def panel(self, first: tuple[int, int], second: tuple[int, int], rooms: tuple[int, int] | None = None) -> Panel:
        """One pair of tables opened for two parties, each with a limit of calls and of answers (90); `rooms` are those of calls and
        answers, just enough for both if none are given."""
        return Panel(self, first, second, rooms)


class Panel:
    """One pair of tables that two parties with the same book share. `calls` and `answers` have 2 and 19 words for a record, 0 past them;
    `kept` are the words kept beside them, the counts of records last. All three may be stored and put back: a run refuses with 91 what no
    opening and no run under its book left."""

    def __init__(self, library: Library, first: tuple[int, int], second: tuple[int, int], rooms: tuple[int, int] | None = None):
        if not all(0 <= limit < 2**64 for limit in (*first, *second)):
            raise ValueError("a limit is a number of 64 bits")
        rooms = tuple(min(sum(both), MOST_RECORDS) for both in zip(first, second)) if rooms is None else rooms
        self._library = library
        self.calls, self.answers = (U64 * (SHARED_CALL_WORDS * rooms[0]))(), (U64 * (SHARED_ANSWER_WORDS * rooms[1]))()
        opened = library._open(*first, *second, self.calls, len(self.calls), self.answers, len(self.answers))
        if opened.refusal:
            raise Refused(opened.refusal)
        self.kept: Words = (U64 * KEPT_WORDS)(*opened.kept)

    def share(
        self, party: Party, sheet: Sheet, rules: Rules, start: int | None = None, goal: Sequence[int] | None = None, room: int | None = None
    ) -> tuple[Shared, list[int]]:
        """The party's own counts and its ends in rising order. Goal and start are the sheet's where none are given; `room` is that of the
        list of ends, else one that is long enough. The party's earlier rows that the other does not need are given up; the other's stay.
        """
        party = Party(party)
        start, goal = sheet.start if start is None else start, sheet.goal[: sheet.goal_len] if goal is None else goal
        if not 0 <= start < 2**64 or not all(0 <= word < 2**16 for word in goal):
            raise ValueError("a start is a number of 64 bits, a step word one of 16")
        limit = self.kept[22 if party is Party.SECOND else 1] if len(self.kept) == KEPT_WORDS else 0
        ends = (U64 * (min(limit, MOST_RECORDS) // 2 + 1 if room is None else room))()
        shared = self._library._share(
            party is Party.SECOND, sheet.fluents, sheet.actions, rules, rule_words(sheet, rules), (U16 * len(goal))(*goal), len(goal), start,
            self.kept, len(self.kept), self.calls, len(self.calls), self.answers, len(self.answers), ends, len(ends),
        )
        if len(self.kept) == KEPT_WORDS:
            self.kept = (U64 * KEPT_WORDS)(*shared.kept)
        if shared.refusal:
            raise Refused(shared.refusal, finished=(shared,) if shared.refusal == 31 else None)
        return shared, ends[: shared.ends]

    def record(self, party: Party, end: int) -> int | None:
        """The answer record for an end of the goal that a party holds rows for; None too where the tables are not as a run left them."""
        party = Party(party)
        count = self.kept[43] if len(self.kept) == KEPT_WORDS else 0
        for record in range(min(count, len(self.answers) // SHARED_ANSWER_WORDS)):
            call, final = self.answers[SHARED_ANSWER_WORDS * record : SHARED_ANSWER_WORDS * record + 2]
            if final == end and SHARED_CALL_WORDS * call < len(self.calls) and self.calls[SHARED_CALL_WORDS * call] == party:
                return record
        return None

    def path(self, sheet: Sheet, rules: Rules, record: int, room: int = 65536) -> list[int]:
        """The states of the execution that an answer record's evidence unfolds to; of the sheet the goal and the start are not used."""
        states = (U64 * room)()
        path = self._library._share_path(
            sheet.fluents, sheet.actions, rules, rule_words(sheet, rules), self.kept, len(self.kept), self.calls, len(self.calls),
            self.answers, len(self.answers), record, states, len(states),
        )
        if path.refusal:
            raise Refused(path.refusal)
        return states[: path.states]


def goal_records(run: Run, calls: Words, answers: Words) -> dict[int, int]:
    """The number of the goal's answer record for each end."""
    goals = [i for i in range(run.answers) if calls[CALL_WORDS * answers[ANSWER_WORDS * i]] == 64]
    return {answers[ANSWER_WORDS * i + 1]: i for i in goals}


def print_ends(lib: Library, text: Text) -> None:
    """Prints the ends of a sheet, each with a path to it, or the sheet's refusal."""
    try:
        sheet, rules = lib.read(text)
        run, ends, calls, answers, _ = lib.evaluate(sheet, rules)
    except Refused as refusal:
        print("refused", refusal.number, refusal.line, sep="\t")
        return
    names = [lib.fluent_name(text, k).decode() for k in range(sheet.fluents)]
    record_of = goal_records(run, calls, answers)
    print("ends", run.ends, run.calls, run.answers, sep="\t")
    for state in ends:
        print("end", state, *(name for k, name in enumerate(names) if state >> k & 1), sep="\t")
        try:
            path = lib.path(sheet, rules, run, calls, answers, record_of[state])
        except Refused as refusal:
            path = "refused", refusal.number
        print("path", *path, sep="\t")


def main() -> None:
    with open(sys.argv[1], "rb") as file:
        print_ends(Library(os.environ["LAWHEMURI_SO"]), file.read())


if __name__ == "__main__":
    main()
