"""The sheets of sheets/ and sheets/drills/ from Python: the ends stored there, with each end a path from the start to it; and their texts."""

import contextlib
import glob
import io
import os
import re
import threading
import unittest
from fractions import Fraction
from random import Random

import lawhemuri

TOP = os.path.join(os.path.dirname(os.path.abspath(__file__)), "..", "..")
SHEETS = os.path.join(TOP, "sheets")
LIBRARY = lawhemuri.Library(os.environ["LAWHEMURI_SO"])

# The paths of drills D1 and D5, and a path of 65,537 states.
PATHS = {"example": [["0", "1", "3", "2"]], "idle_update": [["1", "1"]], "long_path": [["refused", "43"]]}


def content(path):
    with open(path, "rb") as file:
        return file.read()


def fields(text):
    """The fields of each line."""
    return [line.split("\t") for line in text.splitlines()]


def start_of(text):
    """The start state that an accepted sheet's lines say."""
    fluents = [line[1] for line in fields(text) if line[0] == "fluent"]
    [start] = [line[1:] for line in fields(text) if line[0] == "start"]
    return sum(1 << fluents.index(name) for name in start)


def sheets_stored():
    """The files of sheets/ and sheets/drills/."""
    sheets = glob.glob(os.path.join(SHEETS, "*.sheet")) + glob.glob(os.path.join(SHEETS, "drills", "*.sheet"))
    assert sheets
    return sorted(sheets)


class Sheets(unittest.TestCase):
    def test_every_sheet(self):
        for sheet in sheets_stored():
            with self.subTest(os.path.relpath(sheet, SHEETS)):
                self.hold_to_stored(os.path.splitext(sheet)[0])

    def hold_to_stored(self, sheet):
        text, stored = content(sheet + ".sheet"), content(sheet + ".ends").decode()
        with contextlib.redirect_stdout(io.StringIO()) as out:
            lawhemuri.print_ends(LIBRARY, text)
        printed = fields(out.getvalue())
        self.assertEqual([line for line in printed if line[0] != "path"], fields(stored))
        self.assertEqual([line[0] for line in printed[1:]], ["end", "path"] * (len(printed) // 2))
        ends, paths = printed[1::2], [line[1:] for line in printed[2::2]]
        name = os.path.basename(sheet)
        if name in PATHS:
            self.assertEqual(paths, PATHS[name])
            return
        for end, path in zip(ends, paths):
            self.assertEqual((path[0], path[-1]), (str(start_of(text.decode())), end[1]))


class Kinds(unittest.TestCase):
    """What a sheet may be lent as, and what is printed of results and refusals."""

    TEXT = b"fluent\ta\nstart\ngoal\t+a\n"

    def test_texts(self):
        for lent in (bytearray(self.TEXT), memoryview(self.TEXT), self.TEXT.decode()):
            self.assertEqual([bytes(part) for part in LIBRARY.read(lent)], [bytes(part) for part in LIBRARY.read(self.TEXT)])
            self.assertEqual((LIBRARY.fluent_name(lent, 0), LIBRARY.write(lent)), (b"a", self.TEXT))
            self.assertEqual((LIBRARY.merge(lent, self.TEXT), LIBRARY.merge(self.TEXT, lent)), (self.TEXT, self.TEXT))
            self.assertEqual(LIBRARY.merged_fluent(lent, lent, 0), b"a")
        for text in "fluent\t\u00e9\n", "\ufeff", "\ud800":
            with self.assertRaises(lawhemuri.Refused) as refused:
                LIBRARY.read(text)
            self.assertEqual(refused.exception.number, 11)
        for text in None, 7, [102]:
            with self.assertRaisesRegex(TypeError, "a sheet is bytes"):
                LIBRARY.read(text)

    def test_printed(self):
        sheet, rules = LIBRARY.read(self.TEXT)
        self.assertEqual(
            repr(sheet),
            f"Sheet(refusal=0, line=0, fluents=1, actions=0, rules=0, start=0, goal_len=1, goal={[256] + [0] * 15})",
        )
        self.assertEqual(repr(LIBRARY.evaluate(sheet, rules)[0]), "Run(refusal=0, ends=1, calls=1, answers=1, rounds=1)")
        with self.assertRaises(lawhemuri.Refused) as refused:
            LIBRARY.merge(self.TEXT, b"\n")
        said = "refused 13: no record word, or one out of order, sheet 2, line 1"
        self.assertEqual((str(refused.exception), repr(refused.exception)), (said, f"Refused({said})"))

    def test_meanings(self):
        """The numbers are those of the header, the words those of the Rust host."""
        header = content(os.path.join(TOP, "include", "lawhemuri.h")).decode()
        between = header[header.index("#define LAWHEMURI_OK 0u") : header.index("---- Words ----")]
        self.assertEqual([0, *lawhemuri.MEANINGS], [int(number) for number in re.findall(r"#define LAWHEMURI_\w+ (\d+)u", between)])
        rust = content(os.path.join(TOP, "hosts", "rust", "src", "refusal.rs")).decode()
        words = dict(re.findall(r'Refusal::(\w+) => "(.*)"', rust))
        numbers = re.findall(r"(\w+) = (\d+),", rust)
        self.assertEqual(lawhemuri.MEANINGS, {int(number): words[name] for name, number in numbers})


class SmallStack(unittest.TestCase):
    """In a thread with 128 KiB of stack a run gives what it gives in any other, in every word."""

    DRILL = b"fluent\ta\nfluent\tb\naction\tg\nrule\tg\t!g\t?a\t+b\nrule\tg\t+a\nstart\ngoal\t!g\n"
    # 11 actions in a row, each of which inserts its fluent or does nothing.
    CHOICES = "".join(
        [f"fluent\tf{i}\n" for i in range(11)] + [f"action\ta{i}\n" for i in range(11)]
        + [f"rule\ta{i}\t+f{i}\nrule\ta{i}\n" for i in range(11)] + ["start\ngoal"] + [f"\t!a{i}" for i in range(11)] + ["\n"]
    )

    def test_same_words(self):
        before = threading.stack_size(131072)
        self.addCleanup(threading.stack_size, before)
        for text, told in (self.DRILL, (0, 2, 2, 4, 4)), (self.CHOICES, (0, 2048, 2048, 6142, 23)):
            sheet, rules = LIBRARY.read(text)
            runs = []

            def run():
                counts, ends, *words = LIBRARY.evaluate(sheet, rules, (2048, 6144, 2048))
                runs.append((tuple(getattr(counts, name) for name, _ in counts._fields_), ends, *(list(part) for part in words)))

            run()
            thread = threading.Thread(target=run)
            thread.start()
            thread.join()
            self.assertEqual((len(runs), runs[0][0]), (2, told))
            self.assertTrue(runs[0] == runs[1])


class Denial(unittest.TestCase):
    """The step `~`: goes on where the fluent does not hold, and nowhere else."""

    def test_ends(self):
        for start, ends in (b"a", [1]), (b"b", []):
            sheet, rules = LIBRARY.read(b"fluent\ta\nfluent\tb\nstart\t" + start + b"\ngoal\t~b\n")
            self.assertEqual(list(sheet.goal[:2]), [1025, 0])
            self.assertEqual(LIBRARY.evaluate(sheet, rules)[1], ends)

    def test_action(self):
        with self.assertRaises(lawhemuri.Refused) as refused:
            LIBRARY.read(b"action\tg\nstart\ngoal\t~g\n")
        self.assertEqual((refused.exception.number, refused.exception.line), (16, 3))


class Texts(unittest.TestCase):
    """Every accepted sheet written: a plain text that says the same, is no longer, and is its own text."""

    def test_every_sheet(self):
        for sheet in sheets_stored():
            with self.subTest(os.path.relpath(sheet, SHEETS)):
                self.hold_to_sheet(content(sheet))

    def hold_to_sheet(self, text):
        try:
            said = LIBRARY.read(text)
        except lawhemuri.Refused as refused:
            with self.assertRaises(lawhemuri.Refused) as same:
                LIBRARY.write(text)
            self.assertEqual((same.exception.number, same.exception.line), (refused.number, refused.line))
            return
        written = LIBRARY.write(text)
        self.assertLessEqual(len(written), len(text))
        self.assertFalse(set(written) & set(b"# \r"))
        self.assertEqual([bytes(part) for part in LIBRARY.read(written)], [bytes(part) for part in said])
        self.assertEqual(LIBRARY.write(written), written)
        with self.assertRaises(lawhemuri.Refused) as short:
            LIBRARY.write(text, room=len(written) - 1)
        self.assertEqual((short.exception.number, short.exception.line), (50, 0))

    def test_start_in_fluent_order(self):
        self.assertEqual(
            LIBRARY.write(b"# x\r\nfluent\ta\r\nfluent\tb\nfluent\tc\nstart\tc\ta\r\ngoal\n"),
            b"fluent\ta\nfluent\tb\nfluent\tc\nstart\ta\tc\ngoal\n",
        )


def merged_by_names(first, second):
    """The text of two plain texts together, by their lines alone."""
    lines = [text.decode().splitlines() for text in (first, second)]
    of = lambda which, word: [line for line in lines[which] if line.split("\t")[0] == word]
    out = []
    for word in ("fluent", "action", "rule"):
        found = of(0, word)
        for line in of(1, word):
            found += [line] * (line not in found)
        out += found
    held = {name for which in (0, 1) for name in of(which, "start")[0].split("\t")[1:]}
    names = [line.split("\t")[1] for line in out if line.startswith("fluent\t")]
    out += ["\t".join(["start"] + [name for name in names if name in held])] + of(0, "goal")
    return "".join(line + "\n" for line in out).encode(), names


class Merges(unittest.TestCase):
    """Every two accepted sheets merged: the text by their lines, with its names handed back; a sheet with itself is its own text."""

    def test_every_two_sheets(self):
        texts, merges = [], 0
        for sheet in sheets_stored():
            with contextlib.suppress(lawhemuri.Refused):
                texts.append((content(sheet), LIBRARY.write(content(sheet))))
        for first, plain in texts:
            self.assertEqual(LIBRARY.merge(first, first), plain)
            for second, other in texts:
                merges += self.hold_to_lines(first, second, *merged_by_names(plain, other))
        self.assertGreater(merges, len(texts))

    def hold_to_lines(self, first, second, expected, names):
        try:
            text = LIBRARY.merge(first, second)
        except lawhemuri.Refused as refused:
            self.assertIn((refused.number, refused.sheet, refused.line), [(70, 0, 0), (17, 0, 0), (10, 0, 0)])
            self.assertEqual(LIBRARY.merged_fluent(first, second, 0), b"")
            return 0
        self.assertEqual(text, expected)
        self.assertEqual(LIBRARY.write(text), text)
        for fluent, name in enumerate(names + [""]):
            self.assertEqual(LIBRARY.merged_fluent(first, second, fluent), name.encode())
        return 1

    def test_ends(self):
        names = b"fluent\ta\nfluent\tb\naction\tg\n"
        first = names + b"rule\tg\t~b\t+a\nstart\ngoal\t!g\n"
        kept = LIBRARY.merge(first, names + b"rule\tg\t+b\nstart\ngoal\n")
        lost = LIBRARY.merge(first, names + b"rule\tg\t?b\nstart\tb\ngoal\n")
        # the second start names b, which the first's does not: the first's end is none of the last
        for sheet, ends in (first, [1]), (kept, [1, 2]), (lost, [2]):
            self.assertEqual(LIBRARY.evaluate(*LIBRARY.read(sheet))[1], ends)

    def test_faults(self):
        good = b"fluent\ta\nstart\ngoal\n"
        for first, second, fault in [
            (b"fluent\tA\n", good, (14, 1, 1)),
            (good, b"# x\nfluent\tA\n", (14, 2, 2)),
            (good, b"start\ngoal", (12, 2, 0)),
            (good, b"action\ta\nstart\ngoal\n", (70, 0, 0)),
        ]:
            with self.assertRaises(lawhemuri.Refused) as refused:
                LIBRARY.merge(first, second)
            self.assertEqual((refused.exception.number, refused.exception.sheet, refused.exception.line), fault)
        with self.assertRaises(lawhemuri.Refused) as short:
            LIBRARY.merge(good, good, room=len(good) - 1)
        self.assertEqual((short.exception.number, short.exception.sheet), (50, 0))


class ShortList(unittest.TestCase):
    """Drill D2 with a list of one place: 31."""

    def test_counts_and_tables_are_given(self):
        sheet, rules = LIBRARY.read(content(os.path.join(SHEETS, "left_recursion.sheet")))
        _, ends, calls, answers, listed = LIBRARY.evaluate(sheet, rules, rooms=(2, 4, 2))
        self.assertEqual((ends, list(listed)), ([1, 3], [1, 0]))
        with self.assertRaises(lawhemuri.Refused) as short:
            LIBRARY.evaluate(sheet, rules, rooms=(2, 4, 1))
        self.assertEqual(short.exception.number, 31)
        run, *same = short.exception.finished
        self.assertEqual((run.ends, run.calls, run.answers, run.rounds), (2, 2, 4, 4))
        self.assertEqual([list(words) for words in same], [list(calls), list(answers), list(listed)])


class CallList(unittest.TestCase):
    """The list of calls that a run leaves, and calls found by it."""

    # calls (64, 0), (0, 0), (0, 1) and (1, 0), with their rounds
    TABLE = (lawhemuri.U64 * 12)(64, 0, 0, 0, 0, 1, 0, 1, 2, 1, 0, 2)

    def find(self, count, listed, action, state):
        return LIBRARY.find(self.TABLE, count, (lawhemuri.U64 * len(listed))(*listed), action, state)

    def refusal(self, asked):
        with self.assertRaises(lawhemuri.Refused) as refused:
            asked()
        return refused.exception.number

    def test_lists_of_drills(self):
        for name, records in ("example", [2, 1, 0]), ("left_recursion", [1, 0]):
            lent = (lawhemuri.U64 * 9)(*[7] * 9)
            run, _, calls, _, listed = LIBRARY.evaluate(*LIBRARY.read(content(os.path.join(SHEETS, name + ".sheet"))), (8, 8, 8), lent)
            self.assertEqual(list(listed), records + [0] * (9 - len(records)))
            rows = [calls[3 * row : 3 * row + 2] for row in range(run.calls)]
            self.assertEqual([LIBRARY.find(calls, run.calls, listed, *row) for row in rows], list(range(run.calls)))
            self.assertIsNone(LIBRARY.find(calls, run.calls, listed, 64, 1))

    def test_short_list(self):
        sheet, rules = LIBRARY.read(content(os.path.join(SHEETS, "left_recursion.sheet")))
        for rooms, places, number, word in ((8, 8, 8), 7, 34, 7), ((2, 3, 2), 1, 34, 7), ((2, 4, 1), 1, 34, 7), ((2, 3, 2), 4, 30, 0):
            lent = (lawhemuri.U64 * places)(*[7] * places)
            self.assertEqual(self.refusal(lambda: LIBRARY.evaluate(sheet, rules, rooms, lent)), number)
            self.assertEqual(list(lent), [word] * places)

    def test_found(self):
        for action, state, row in (0, 0, 1), (0, 1, 2), (1, 0, 3), (64, 0, 0), (64, 1, None), (0, 2, None), (2**64 - 1, 2**64 - 1, None):
            self.assertEqual(self.find(4, [1, 2, 3, 0], action, state), row)
        self.assertIsNone(self.find(0, [], 64, 0))
        self.assertEqual(self.find(4, [9, 2, 3, 0], 64, 0), 0)  # place 0 is not read
        self.assertEqual(self.find(4, [3, 2, 1, 0], 0, 0), 1)  # not rising: as the procedure comes to it

    def test_refused(self):
        for number, asked in (
            (40, (5, [1, 2, 3, 0], 0, 1)),
            (35, (4, [1, 2, 3], 0, 1)),
            (35, (4, [1, 2, 4, 0], 0, 1)),  # place 2 is read first
            (35, (4, [9, 2, 3, 0], 0, 0)),
        ):
            self.assertEqual(self.refusal(lambda: self.find(*asked)), number)
        with self.assertRaises(ValueError):
            self.find(4, [1, 2, 3, 0], -1, 0)


class Rounds(unittest.TestCase):
    """How deep the work of a run went, and the round of each record."""

    def setUp(self):
        self.sheet, self.rules = LIBRARY.read(content(os.path.join(SHEETS, "left_recursion.sheet")))

    def test_drills(self):
        for fields, goal, rounds in [
            ("rule\tg\t+a\nrule\th\t!g\t?a\t+b\t-a", "!h", 5),  # D1
            ("rule\tg\t!g\t?a\t+b\nrule\tg\t+a", "!g", 4),  # D2
            ("rule\tg\t!g", "!g", 1),  # D3
            ("rule\tg\t+a", "!g\t?b", 2),  # D7
            ("rule\tg\t+a\t!g\nrule\tg\t?a", "!g", 5),  # D8
            ("rule\tg\t+a\t-a\nrule\th\t!g\t!g", "!h", 5),  # D9
            ("rule\tg", "?a", 0),
        ]:
            text = f"fluent\ta\nfluent\tb\naction\tg\naction\th\n{fields}\nstart\ngoal\t{goal}\n"
            self.assertEqual(LIBRARY.evaluate(*LIBRARY.read(text))[0].rounds, rounds)
        empty = LIBRARY.evaluate(*LIBRARY.read("fluent\ta\nfluent\tb\nstart\tb\ngoal\n"))[0]  # D4
        self.assertEqual((empty.answers, empty.rounds), (1, 1))

    def test_records_of_left_recursion(self):
        run, _, calls, answers, _ = LIBRARY.evaluate(self.sheet, self.rules, rooms=(2, 4, 2))
        self.assertEqual((run.rounds, list(calls)), (4, [64, 0, 0, 0, 0, 1]))
        records = [answers[20 * i : 20 * i + 20] for i in range(4)]
        self.assertEqual([record[:4] for record in records], [[1, 1, 1, 0], [0, 1, 256, 0], [1, 3, 0, 0], [0, 3, 256, 2]])
        self.assertEqual([record[19] for record in records], [2, 3, 3, 4])

    def test_rounds_that_no_table_has(self):
        run, _, calls, answers, _ = LIBRARY.evaluate(self.sheet, self.rules, rooms=(2, 4, 2))

        def shown():
            return LIBRARY.path(self.sheet, self.rules, run, calls, answers, 3)

        path, calls[2], answers[79] = shown(), 131071, 2**64 - 1
        self.assertEqual(shown(), path)
        for table, word, value in (calls, 2, 131072), (answers, 59, 2):
            kept, table[word] = table[word], value
            with self.assertRaises(lawhemuri.Refused) as refused:
                shown()
            self.assertEqual(refused.exception.number, 42)
            table[word] = kept


class OneOrder(unittest.TestCase):
    """Every word of both tables: calls by round, action and state; answers by round, call record and final state, by the lowest rule and the
    least evidence."""

    def test_words(self):
        sheet, rules = LIBRARY.read(
            "fluent\ta\nfluent\tb\naction\tg\nrule\tg\t+b\nrule\tg\t+a\nrule\tg\t+a\t+b\nstart\ngoal\t!g\t!g\n"
        )
        run, ends, calls, answers, listed = LIBRARY.evaluate(sheet, rules, rooms=(6, 12, 3))
        self.assertEqual(list(listed), [1, 2, 3, 4, 0, 0])
        self.assertEqual((run.calls, run.answers, run.rounds, ends), (5, 11, 5, [1, 2, 3]))
        self.assertEqual(list(calls), [64, 0, 0] + [0, 0, 1] + [0, 1, 3] + [0, 2, 3] + [0, 3, 3] + [0, 0, 0])
        words = []
        for call, final, rule, evidence, round_ in [
            (1, 1, 1, (0, 0), 2),
            (1, 2, 0, (0, 0), 2),
            (1, 3, 2, (0, 0), 2),
            (2, 1, 1, (0, 0), 4),
            (2, 3, 0, (0, 0), 4),
            (3, 2, 0, (0, 0), 4),
            (3, 3, 1, (0, 0), 4),
            (4, 3, 0, (0, 0), 4),
            (0, 1, 256, (0, 3), 5),
            (0, 2, 256, (1, 5), 5),
            (0, 3, 256, (0, 4), 5),
            (0, 0, 0, (0, 0), 0),
        ]:
            words += [call, final, rule, *evidence] + [0] * 14 + [round_]
        self.assertEqual(list(answers), words)


class WholeClass(unittest.TestCase):
    """Drill D2's goal from several starts in one go."""

    def setUp(self):
        self.sheet, self.rules = LIBRARY.read(content(os.path.join(SHEETS, "left_recursion.sheet")))

    def told(self, starts, **rooms):
        given = LIBRARY.class_run(self.sheet, self.rules, starts, **rooms)
        return [((run.refusal, run.ends, run.calls, run.answers), ends) for run, ends in given]

    def test_in_turn(self):
        self.assertEqual(
            self.told([0, 2, 4, 1], rooms=(8, 8, 4)),
            [((0, 2, 2, 4), [1, 3]), ((0, 1, 2, 2), [3]), ((24, 0, 0, 0), []), ((31, 2, 2, 4), [])],
        )
        self.assertEqual(self.told([0, 2], rooms=(2, 3, 2)), [((30, 0, 0, 0), []), ((0, 1, 2, 2), [3])])
        self.assertEqual(self.told([]), [])

    def test_room_for_every_start(self):
        """Without rooms given the list has place for all: 200 starts have more than 256 ends."""
        self.assertEqual(self.told([0] * 200), [((0, 2, 2, 4), [1, 3])] * 200)

    def test_starts_of_64_bits(self):
        self.assertEqual(self.told([2**64 - 1]), [((24, 0, 0, 0), [])])
        for start in 2**64, -1:
            with self.assertRaises(ValueError):
                self.told([0, start])

    def test_most_starts(self):
        self.assertEqual(self.told([0] * 1024, rooms=(2, 4, 2048)), [((0, 2, 2, 4), [1, 3])] * 1024)
        for starts, words in ([0] * 1025, 4100), ([0], 3):
            with self.assertRaises(lawhemuri.Refused) as refused:
                self.told(starts, words=words)
            self.assertEqual(refused.exception.number, 25)


class ByFluent(unittest.TestCase):
    """Paths kept by fluent."""

    def test_path_both_ways(self):
        # Drill D9 with a second fluent.
        text = b"fluent\ta\nfluent\tb\naction\tp\naction\tq\nrule\tp\t+a\t-a\nrule\tq\t!p\t!p\nstart\ngoal\t!q\n"
        sheet, rules = LIBRARY.read(text)
        run, ends, calls, answers, _ = LIBRARY.evaluate(sheet, rules)
        [record] = lawhemuri.goal_records(run, calls, answers).values()
        path = LIBRARY.path(sheet, rules, run, calls, answers, record)
        self.assertEqual(path, [0, 1, 0, 1, 0])
        words = LIBRARY.store(sheet.fluents, path)
        self.assertEqual(words, [0b01010, 0])
        self.assertEqual(LIBRARY.restore(sheet.fluents, len(path), words), path)

    def test_blocks_both_ways(self):
        states, out = [i * i // 3 % 8 for i in range(130)], (lawhemuri.U64 * 10)(*[7] * 10)
        words = LIBRARY.store(3, states, out)
        self.assertEqual(words, [sum((s >> k & 1) << i for i, s in enumerate(states[b : b + 64])) for b in (0, 64, 128) for k in range(3)])
        self.assertEqual(out[9], 7)
        self.assertEqual(LIBRARY.restore(3, 130, words), states)
        self.assertEqual(LIBRARY.store(3, LIBRARY.restore(3, 130, words)), words)

    def test_refused_outputs_are_unchanged(self):
        most, out = 2**64 - 1, (lawhemuri.U64 * 3)(7, 7, 7)
        for number, refused in (
            (20, lambda: LIBRARY.store(65, [0], out)),
            (24, lambda: LIBRARY.store(1, [2], out)),
            (80, lambda: LIBRARY.store(4, [0], out)),
            (20, lambda: LIBRARY.restore(65, 1, [], out)),
            (81, lambda: LIBRARY.restore(2, 1, [0], out)),
            (81, lambda: LIBRARY.restore(64, most, [], out)),
            (82, lambda: LIBRARY.restore(2, 1, [2, 0], out)),
            (80, lambda: LIBRARY.restore(2, 4, [6, 12], out)),
            (80, lambda: LIBRARY.restore(0, most, [], out)),
        ):
            with self.assertRaises(lawhemuri.Refused) as refusal:
                refused()
            self.assertEqual((refusal.exception.number, list(out)), (number, [7, 7, 7]))


class OfAClass(unittest.TestCase):
    """The figures of a class run, as it comes and from result words and ends written here."""

    def test_figures(self):
        out = (lawhemuri.U64 * 9)(*[7] * 9)
        figures = LIBRARY.report(2, [0, 2, 2, 4, 31, 5, 5, 5, 0, 1, 1, 1], [1, 3, 1], out)
        self.assertEqual(figures, ([Fraction(1), Fraction(1, 3)], Fraction(4, 3), Fraction(3, 2)))
        self.assertEqual(list(out), [1, 1, 1, 3, 4, 3, 3, 2, 7])
        self.assertEqual(LIBRARY.report(2, [], []), ([None, None], None, None))
        self.assertEqual(LIBRARY.report(1, [0, 0, 2, 0], []), ([None], None, Fraction(0)))
        self.assertEqual(LIBRARY.report(1, [0, 1, 1, 1] * 2, [1, 1]), ([Fraction(1)], Fraction(1), Fraction(1)))
        self.assertEqual(LIBRARY.report(64, [0, 1, 1, 1], [2**64 - 1]), ([Fraction(1)] * 64, Fraction(64), Fraction(1)))

    def test_bounds(self):
        self.assertEqual(LIBRARY.report(1, [0] * 4096, []), ([None], None, Fraction(0)))
        self.assertEqual(LIBRARY.report(1, [0, 65536, 0, 0], [1] * 65536), ([Fraction(1)], Fraction(1), Fraction(65536)))

    def test_class_as_it_comes(self):
        sheet, rules = LIBRARY.read(b"fluent\ta\nfluent\tb\naction\tg\nrule\tg\t!g\t?a\t+b\nrule\tg\t+a\nstart\ngoal\t!g\n")
        given = LIBRARY.class_run(sheet, rules, [0, 2, 4, 1], rooms=(8, 8, 4))
        results = [word for run, _ in given for word in (run.refusal, run.ends, run.calls, run.answers)]
        ends = [end for _, listed in given for end in listed]
        self.assertEqual((results[8], results[12], ends), (24, 31, [1, 3, 3]))
        self.assertEqual(LIBRARY.report(2, results, ends), ([Fraction(1), Fraction(2, 3)], Fraction(5, 3), Fraction(3, 2)))

    def test_random_classes(self):
        random = Random(8)
        for _ in range(300):
            fluents = random.choice([0, 1, 2, 3, 7, 64])
            starts = [random.choice([0, 0, 0, 24, 30, 31]) for _ in range(random.randrange(6))]
            counts = [random.randrange(5) for _ in starts]
            ends = [random.randrange(2**fluents) for _ in range(sum(n for start, n in zip(starts, counts) if start == 0))]
            results = [word for start, n in zip(starts, counts) for word in (start, n, random.randrange(2**64), 0)]
            self.assertEqual(LIBRARY.report(fluents, results, ends), self.figures(fluents, starts, ends))

    def figures(self, fluents, starts, ends):
        over = lambda n, d: Fraction(n, d) if d else None
        shares = [over(sum(end >> k & 1 for end in ends), len(ends)) for k in range(fluents)]
        return shares, over(sum(bin(end).count("1") for end in ends), len(ends)), over(len(ends), starts.count(0))

    def test_refused_outputs_are_unchanged(self):
        out = (lawhemuri.U64 * 5)(*[7] * 5)
        for number, refused in (
            (20, lambda: LIBRARY.report(65, [0], [1], out)),
            (26, lambda: LIBRARY.report(1, [0] * 5, [], out)),
            (26, lambda: LIBRARY.report(1, [0] * 4100, [], out)),
            (26, lambda: LIBRARY.report(1, [0, 65537, 0, 0], [1] * 65537, out)),
            (26, lambda: LIBRARY.report(1, [0, 1, 1, 1], [], out)),
            (26, lambda: LIBRARY.report(1, [0, 2**64 - 1, 0, 0, 0, 1, 0, 0], [], out)),
            (26, lambda: LIBRARY.report(1, [0, 1, 1, 1], [2], out)),
            (27, lambda: LIBRARY.report(1, [0, 1, 1, 1], [1], out)),
        ):
            with self.assertRaises(lawhemuri.Refused) as refusal:
                refused()
            self.assertEqual((refusal.exception.number, list(out)), (number, [7] * 5))


class Marks(unittest.TestCase):
    """Records of drill D2's book."""

    TEXT = b"fluent\ta\nfluent\tb\naction\tg\nrule\tg\t!g\t?a\t+b\nrule\tg\t+a\nstart\ngoal\t!g\n"

    def test_records(self):
        sheet, rules = LIBRARY.read(self.TEXT)
        for record, yes, word in (
            ([256], True, 0b10), ([256, 0, 257], True, 0b1010), ([256, 0, 257, 0, 257], True, 0b101010),
            ([256, 0], False, 0b10), ([256, 1], False, 0b10), ([], False, 0),
        ):
            table = (lawhemuri.U64 * 4097)(*[7] * 4097)
            self.assertEqual(LIBRARY.mark(sheet, rules, record, table)[0], yes)
            self.assertEqual(list(table), [word] + [0] * 4095 + [7])

    def test_refused_tables_are_unchanged(self):
        sheet, rules = LIBRARY.read(self.TEXT)
        for number, record, room in ((60, [768] * 64, 4095), (61, [768], 4095), (62, [768], 4096), (62, [258], 4096), (62, [1280], 4096)):
            table = (lawhemuri.U64 * room)(*[7] * room)
            with self.assertRaises(lawhemuri.Refused) as refusal:
                LIBRARY.mark(sheet, rules, record, table)
            self.assertEqual((refusal.exception.number, list(table)), (number, [7] * room))


class TwoParties(unittest.TestCase):
    """Drill D2's book on one panel, with rooms of 4 calls and 10 answers and limits of 2 calls and 4 answers for each party."""

    FIRST, SECOND = lawhemuri.Party

    def setUp(self):
        self.sheet, self.rules = LIBRARY.read(content(os.path.join(SHEETS, "left_recursion.sheet")))
        self.panel = LIBRARY.panel((2, 4), (2, 4), rooms=(4, 10))

    def told(self, party, goal, start, room=None):
        """Refusal and counts, and the ends; then what the tables hold."""
        try:
            shared, ends = self.panel.share(party, self.sheet, self.rules, start, goal, room)
        except lawhemuri.Refused as refused:
            [shared], ends = refused.finished or [lawhemuri.Shared(refused.number)], []
        return (shared.refusal, shared.ends, shared.calls, shared.answers), ends, self.held()

    def held(self):
        """The calls in rising order, and the answers by call and final state; past the records both tables are 0."""
        calls, answers, (n, m) = list(self.panel.calls), list(self.panel.answers), self.panel.kept[42:]
        self.assertFalse(any(calls[2 * n :]) or any(answers[19 * m :]))
        rows = [tuple(calls[2 * i : 2 * i + 2]) for i in range(n)]
        return sorted(rows), sorted((*rows[answers[19 * i]], answers[19 * i + 1]) for i in range(m))

    def words(self):
        return [list(words) for words in (self.panel.calls, self.panel.answers, self.panel.kept)]

    def row_of_runs(self):
        g = [(0, 0, 1), (0, 0, 3)]
        for party, goal, start, room, counts, ends, calls, answers in (
            (self.FIRST, [768], 0, 2, (0, 2, 2, 4), [1, 3], [(0, 0), (64, 0)], g + [(64, 0, 1), (64, 0, 3)]),
            (
                self.SECOND, [768], 0, 1, (31, 2, 2, 4), [], [(0, 0), (64, 0), (65, 0)],
                g + [(64, 0, 1), (64, 0, 3), (65, 0, 1), (65, 0, 3)],
            ),
            (self.SECOND, [768, 1], 0, 1, (0, 1, 2, 3), [3], [(0, 0), (64, 0), (65, 0)], g + [(64, 0, 1), (64, 0, 3), (65, 0, 3)]),
            (
                self.FIRST, [768], 2, None, (0, 1, 2, 2), [3], [(0, 0), (0, 2), (64, 2), (65, 0)],
                g + [(0, 2, 3), (64, 2, 3), (65, 0, 3)],
            ),
            (self.FIRST, [769], 0, None, (23, 0, 0, 0), [], [(0, 0), (65, 0)], g + [(65, 0, 3)]),
            (self.FIRST, [768, 768], 0, None, (30, 0, 0, 0), [], [(0, 0), (65, 0)], g + [(65, 0, 3)]),
            (self.FIRST, [768], 4, None, (24, 0, 0, 0), [], [(0, 0), (65, 0)], g + [(65, 0, 3)]),
        ):
            self.assertEqual(self.told(party, goal, start, room), (counts, ends, (calls, answers)))

    def test_row_of_runs(self):
        self.row_of_runs()
        kept = [2, 4] + [0] * 19 + [2, 4, 1, 0, 2, 768, 1] + [0] * 14 + [2, 3]
        self.assertEqual(list(self.panel.kept), kept)
        calls, records = list(self.panel.calls), [self.panel.answers[19 * i : 19 * i + 2] for i in range(3)]
        paths = {(*calls[2 * call : 2 * call + 2], end): self.panel.path(self.sheet, self.rules, i) for i, (call, end) in enumerate(records)}
        self.assertEqual(paths, {(0, 0, 1): [0, 1], (0, 0, 3): [0, 1, 3], (65, 0, 3): [0, 1, 3]})
        self.assertEqual(paths[65, 0, 3], self.panel.path(self.sheet, self.rules, self.panel.record(self.SECOND, 3)))
        self.assertIsNone(self.panel.record(self.FIRST, 3))
        with self.assertRaises(ValueError):
            self.panel.record(7, 3)
        with self.assertRaises(ValueError):
            self.panel.share(self.FIRST, self.sheet, (lawhemuri.U16 * 0)())
        stored = self.panel.answers[:], self.panel.kept[:]
        # What no run left is no record, and no error of Python's.
        self.panel.answers[:] = [2**64 - 1] * len(self.panel.answers)
        self.panel.kept[43] = 2**64 - 1
        self.assertIsNone(self.panel.record(self.SECOND, 2**64 - 1))
        self.panel.answers[:], self.panel.kept[:] = stored

    def refused(self, asked):
        with self.assertRaises(lawhemuri.Refused) as refused:
            asked()
        return refused.exception.number

    def test_refused_paths(self):
        self.row_of_runs()
        record = self.panel.record(self.SECOND, 3)
        path = lambda record, room=4: self.refused(lambda: self.panel.path(self.sheet, self.rules, record, room))
        self.assertEqual((path(3), path(record, 2)), (41, 43))
        for word, value, number in (26, 769, 23), (25, 17, 23), (42, 5, 40), (43, 11, 40), (23, 0, 42), (43, 4, 42):
            before, self.panel.kept[word] = self.panel.kept[word], value
            self.assertEqual(path(record), number)
            self.panel.kept[word] = before

    def test_not_as_kept(self):
        """20 to 22 and 91 change nothing; 91 comes before 23 and 24."""
        self.row_of_runs()
        many, self.sheet.fluents = self.sheet.fluents, 65
        before = self.words()
        self.assertEqual(self.told(self.FIRST, [768], 0)[0], (20, 0, 0, 0))
        self.assertEqual(self.words(), before)
        self.sheet.fluents = many
        for table, word, value in (
            *(("calls", word, 63) for word in (0, 1, 7)),
            *(("answers", word, 63) for word in (0, 1, 2, 3, 189)),
            *(("kept", *put) for put in ((23, 0), (2, 1), (26, 769), (25, 17), (24, 4), (24, 1), (21, 1), (22, 2), (0, 3), (43, 4))),
        ):
            was = getattr(self.panel, table)[word]
            getattr(self.panel, table)[word] = value
            before = self.words()
            asked = lambda: self.panel.share(self.FIRST, self.sheet, self.rules, 4, [769])
            self.assertEqual((self.refused(asked), self.words()), (91, before))
            getattr(self.panel, table)[word] = was
        self.panel.kept = (lawhemuri.U64 * 43)(*self.panel.kept[:43])
        self.assertEqual(self.refused(lambda: self.panel.share(self.FIRST, self.sheet, self.rules)), 91)
        self.assertEqual(self.refused(lambda: self.panel.path(self.sheet, self.rules, 0)), 41)

    def test_openings(self):
        for first, second in ((3, 4), (2, 4)), ((2, 4), (2, 7)), ((2**64 - 1, 0),) * 2, ((0, 1), (0, 2**64 - 1)):
            self.assertEqual(self.refused(lambda: LIBRARY.panel(first, second, rooms=(4, 10))), 90)
        self.assertEqual(self.refused(lambda: LIBRARY.panel((65536, 1), (1, 1))), 90)
        self.assertEqual(list(LIBRARY.panel((4, 3), (0, 7), rooms=(4, 10)).kept[21:23]), [0, 7])
        with self.assertRaises(ValueError):
            LIBRARY.panel((-1, 0), (0, 0))
        for start, goal in (2**64, []), (-1, []), (0, [65536]):
            with self.assertRaises(ValueError):
                self.panel.share(self.FIRST, self.sheet, self.rules, start, goal)

    def test_as_alone(self):
        """Whatever the other does, a party is told what it is told in tables of its own limits, and the tables hold the rows of both."""
        random = Random(14)
        seen = set()
        for _ in range(60):
            names = "".join(f"{word}\t{word[0]}{i}\n" for word in ("fluent", "action") for i in range(3))
            steps = lambda most: "".join(
                "\t" + random.choice(["!a", "!a", "+f", "-f", "?f", "~f"]) + str(random.randrange(3)) for _ in range(random.randrange(most))
            )
            book = names + "".join(f"rule\ta{random.randrange(3)}{steps(4)}\n" for _ in range(6)) + "start\ngoal\n"
            self.sheet, self.rules = LIBRARY.read(book)
            limits = [(random.randrange(1, 12), random.randrange(1, 16)) for _ in range(2)]
            self.panel = LIBRARY.panel(*limits)
            rows = [([], []), ([], [])]
            for _ in range(8):
                which, start = random.randrange(2), random.randrange(9)
                asked, _ = LIBRARY.read(names + f"start\ngoal{steps(4)}\n")
                asked.rules, asked.start = self.sheet.rules, start
                rows[which] = self.hold_to_alone(which, asked, limits[which], rows)
                seen.add(self.last)
        self.assertEqual(seen, {0, 24, 30})

    def hold_to_alone(self, which, asked, limits, rows):
        """Runs the party and holds it to a run alone; gives the rows that it holds then."""
        action, other = (64, 65)[which], rows[1 - which]
        try:
            run, wanted, calls, answers, _ = LIBRARY.evaluate(asked, self.rules, (*limits, 16))
            number = lambda i: action if calls[3 * i] == 64 else calls[3 * i]
            counts = (0, run.ends, run.calls, run.answers)
            records = [answers[20 * i : 20 * i + 2] for i in range(run.answers)]
            mine = [(number(i), calls[3 * i + 1]) for i in range(run.calls)], [(number(c), calls[3 * c + 1], end) for c, end in records]
        except lawhemuri.Refused as refused:
            counts, wanted, mine = (refused.number, 0, 0, 0), [], ([], [])
        self.last = counts[0]
        held = tuple(sorted({*mine[i], *other[i]}) for i in range(2))
        self.assertEqual(self.told(lawhemuri.Party(action), asked.goal[: asked.goal_len], asked.start), (counts, wanted, held))
        for record in range(self.panel.kept[43]):
            self.panel.path(self.sheet, self.rules, record)
        return mine

    def test_stack(self):
        """In a thread with the stack that the header asks for, and some for Python, a run in tables for 65,536 records gives the same."""
        header = content(os.path.join(TOP, "include", "lawhemuri.h")).decode()
        [stack] = re.findall(r"#define LAWHEMURI_STACK_SHARE (\d+)u", header)
        before = threading.stack_size(int(stack) + 131072)
        self.addCleanup(threading.stack_size, before)
        sheet, rules = LIBRARY.read(SmallStack.CHOICES)
        runs = []

        def run():
            panel = LIBRARY.panel((32768, 32768), (32768, 32768))
            given = [panel.share(party, sheet, rules, start) for party, start in ((self.FIRST, 0), (self.SECOND, 1))]
            runs.append([(shared.ends, shared.calls, shared.answers, ends) for shared, ends in given] + [bytes(panel.calls), bytes(panel.answers)])

        run()
        thread = threading.Thread(target=run)
        thread.start()
        thread.join()
        self.assertEqual([counts[:3] for counts in runs[0][:2]], [(2048, 2048, 6142), (1024, 1025, 3071)])
        self.assertTrue(len(runs) == 2 and runs[0] == runs[1])


if __name__ == "__main__":
    unittest.main(verbosity=0)
