#!/usr/bin/env python3
"""Tests the pictures that tools/timeline and tools/memory draw: they are read back, and compared with what the reports say, with
tables that are worked by hand, and with the slots of the real programs that are listed in tests/real.

usage: tests/pictures.py [NAME of a test ..]

It runs the program that ./build or ./test has built, or FDPIC where that is set.
"""

import os
import pathlib
import re
import resource
import shutil
import subprocess
import sys
import tempfile
import unittest
import xml.etree.ElementTree as tree
from collections import Counter
from dataclasses import dataclass

TOP = pathlib.Path(__file__).resolve().parent.parent
PROGRAM = os.environ.get("FDPIC", str(TOP / "crates/fdpic/out/fdpic"))
REPORTS = TOP / "tests/reports"
REAL = TOP / "examples/real"
REAL_PROGRAMS = ("p01", "p02", "p11", "p15")
LETTER, LINE = 9.64, 14  # how wide a letter of 16 units is in the fonts that the pictures name, and how high a line at least
NEAR = 0.002  # how far from its step's place something may be drawn: places have three digits


def run(*words, text=""):
    """A command run at the top: its status, what it has put out, and what it has said."""
    ran = subprocess.run([str(it) for it in words], cwd=TOP, input=text.encode("latin-1"), capture_output=True, check=False)
    return ran.returncode, ran.stdout.decode(), ran.stderr.decode("latin-1")


def drawn(*words, text=""):
    """The picture that a command draws."""
    status, picture, said = run(*words, text=text)
    if status or said:
        raise AssertionError(f"{words}: status {status}, {said}")
    return tree.fromstring(picture)


def timeline(report, *words):
    return drawn("tools/timeline", *words, "-", text=report)


# ---- a picture, read back


def is_kind(element, kind):
    return element.tag.endswith("}" + kind)


def classes(element):
    return element.get("class", "").split()


def elements(root, kind, class_=None):
    return [it for it in root.iter() if is_kind(it, kind) and (class_ is None or class_ in classes(it))]


def told(element):
    """The lines of an element's hover text."""
    return next((it.text for it in element if is_kind(it, "title")), "").split("\n")


def number(element, name):
    return float(element.get(name, 0))


def place(mark):
    """Where a mark is: its x and its y."""
    return [float(it) for it in re.fullmatch(r"translate\((\S+) (\S+)\)", mark.get("transform")).groups()]


@dataclass(frozen=True)
class Bar:
    """A call's bar: in which lane, of which kind, from where to where in steps, and its hover text."""

    lane: str
    kind: str
    start: float
    end: float
    told: tuple


class Timeline:
    """A drawn run. Steps are read off the axis, by the places of its first and its last number."""

    def __init__(self, root):
        self.root = root
        ticks = [(number(it, "x"), int(it.text.replace(",", ""))) for it in elements(root, "text", "tick")]
        (self.zero, first), (last_x, last) = ticks[0], ticks[-1]
        self.unit = (last_x - self.zero) / (last - first)
        self.rows = {it.get("id"): it for it in elements(root, "g", "row")}

    def step(self, x):
        """The step of a place: a whole number where one is near enough."""
        step = (x - self.zero) / self.unit
        return round(step) if abs(step - round(step)) * self.unit <= NEAR else step

    def lane_of(self, y):
        """The lane whose ground is at this height."""
        for name, row in self.rows.items():
            ground = elements(row, "rect", "lane")[0]
            if number(ground, "y") <= y <= number(ground, "y") + number(ground, "height"):
                return name
        return "run"

    def bars(self, class_):
        for bar in elements(self.root, "rect", class_):
            if is_sample(bar):
                continue
            start, width = number(bar, "x"), number(bar, "width")
            kind = " ".join(it for it in classes(bar) if it != class_)
            lane = self.lane_of(number(bar, "y") + number(bar, "height") / 2)
            yield Bar(lane, kind, self.step(start), self.step(start + width), tuple(told(bar)))

    def calls(self):
        return list(self.bars("call"))

    def marks(self):
        """The lane, the kind, the step and the hover text of each mark."""
        for mark in (it for it in elements(self.root, "path", "mark") if not is_sample(it)):
            x, y = place(mark)
            yield self.lane_of(y), " ".join(classes(mark)[1:]), self.step(x), told(mark)

    def ticks_of_binds(self):
        for tick in (it for it in elements(self.root, "rect", "bind") if not is_sample(it)):
            x, y = number(tick, "x") + number(tick, "width") / 2, number(tick, "y") + number(tick, "height") / 2
            yield self.lane_of(y), self.step(x)


def is_sample(element):
    return not any(is_kind(it, "title") for it in element)


def boxes_of_texts(root):
    for text in elements(root, "text"):
        width = LETTER * len(text.text)
        x = number(text, "x") - width * {"end": 1, "middle": 0.5}.get(text.get("text-anchor"), 0)
        yield text.text, (x, number(text, "y") - 12, x + width, number(text, "y") - 12 + LINE)


def boxes_of_marks(root):
    for mark in elements(root, "path", "mark"):
        x, y = place(mark)
        yield " ".join(classes(mark)), (x - 6, y - 6, x + 6, y + 6)


def meet(one, other):
    return one[0] < other[2] and other[0] < one[2] and one[1] < other[3] and other[1] < one[3]


# ---- a report, read apart from the script


def events(report, word):
    return [line.split(" ") for line in report.splitlines() if line.split(" ")[0] == word]


def report_of(name):
    return (REPORTS / f"{name}.txt").read_text()


def reports():
    """All reports that are compared: the stored ones, and those of the real programs. The generated workload's comes here too,
    once there is one."""
    for path in sorted(REPORTS.iterdir()):
        yield path.stem, path.read_text()
    for name in REAL_PROGRAMS:
        status, report, said = run("sh", "-c", f'cd "{REAL}" && "{PROGRAM}" run {name}.job')
        assert status == 0, said
        yield name, report


class Pictures(unittest.TestCase):
    """What holds of every picture."""

    def assert_legible(self, root):
        """No text meets another one or a mark, and all are inside."""
        _, _, width, height = map(float, root.get("viewBox").split())
        texts, marks = list(boxes_of_texts(root)), list(boxes_of_marks(root))
        self.assertTrue(texts)
        for index, (text, box) in enumerate(texts):
            self.assertTrue(0 <= box[0] and box[2] <= width and 0 <= box[1] and box[3] <= height, f"{text!r} isn't inside")
            for other, its in [*texts[index + 1:], *marks]:
                self.assertFalse(meet(box, its), f"{text!r} meets {other!r}")

    def assert_refused(self, words, said, text=""):
        """Nothing is drawn, the status is 1, and the words said begin so."""
        status, picture, error = run(*words, text=text)
        self.assertEqual((status, picture), (1, ""))
        self.assertTrue(error.startswith(said), error)
        self.assertEqual(error.count("\n"), 1)

    def assert_readable(self, root):
        """In light and in dark a text has a contrast of 4.5 at least with each ground that it may stand on."""
        style = elements(root, "style")[0].text
        light, dark = style.split("@media screen and (prefers-color-scheme: dark) {")
        fills = dict(fills_of(light))
        grounds = "paper lane life module bound ground stripe code data fixed own stack free".split()
        for scheme in (fills, fills | dict(fills_of(dark))):
            for name in set(grounds) & set(scheme):
                self.assertGreaterEqual(contrast(scheme["text"], scheme[name]), 4.5, name)


def fills_of(style):
    for names, rule in re.findall(r"^([^{}@]+?) *\{([^}]*)\}", style, re.M):
        if fill := re.search(r"(?:fill|stroke): (#[0-9a-f]{6})", rule):
            for name in names.split(","):
                yield name.strip().lstrip("."), fill[1]


def contrast(one, other):
    """By the definition of the Web Content Accessibility Guidelines 2."""
    light, dark = sorted((luminance(one), luminance(other)), reverse=True)
    return (light + 0.05) / (dark + 0.05)


def luminance(colour):
    parts = [int(colour[at:at + 2], 16) / 255 for at in (1, 3, 5)]
    linear = [it / 12.92 if it <= 0.03928 else ((it + 0.055) / 1.055) ** 2.4 for it in parts]
    return 0.2126 * linear[0] + 0.7152 * linear[1] + 0.0722 * linear[2]


# ---- tools/timeline

# Of stored reports, by hand. Calls: thread, kind, enter, arrive (or where the bar ends), bind, name. Marks: lane, kind, step.
# Modules: number, from, to, name.
WORKED = {
    "eager_call": {
        "calls": [("thread-0", "bound", 1, 5, None, "prog 0 -> foo.so+0x0")],
        "marks": [("module-0", "load", 0), ("module-1", "load", 0), ("thread-0", "exit", 8)],
        "modules": [(0, 0, 8, "prog"), (1, 0, 8, "foo.so")],
        "threads": [(0, 0, 8)],
    },
    "lazy_call": {
        "calls": [("thread-0", "lazy", 1, 12, 10, "prog 0 -> foo.so+0x0")],
        "marks": [("module-0", "load", 0), ("module-1", "load", 0), ("thread-0", "exit", 15)],
        "modules": [(0, 0, 15, "prog"), (1, 0, 15, "foo.so")],
        "threads": [(0, 0, 15)],
    },
    "threads_and_lazy_call": {
        "calls": [
            ("thread-0", "bound", 4, 12, None, "P 0 -> foo.so+0x300"),
            ("thread-1", "bound", 7, 13, None, "P 0 -> foo.so+0x300"),
        ],
        "marks": [
            ("module-0", "load", 0), ("module-1", "load", 0), ("thread-0", "bind", 3), ("thread-0", "start", 3),
            ("thread-0", "done", 17), ("thread-1", "done", 19), ("run", "end", 19),
        ],
        "modules": [(0, 0, 19, "P"), (1, 0, 19, "foo.so")],
        "threads": [(0, 0, 17), (1, 3, 19)],
    },
    "fixed_scope_of_group": {
        "calls": [("thread-0", "lazy", 15, 26, 24, "c.so 0 -> d.so+0x300")],
        "marks": [
            ("module-0", "load", 0), ("module-1", "load", 4), ("module-2", "load", 4), ("module-3", "load", 8),
            ("thread-0", "open", 4), ("thread-0", "open", 8), ("thread-0", "sym", 12), ("thread-0", "exit", 30),
        ],
        "modules": [(0, 0, 30, "P"), (1, 4, 30, "c.so"), (2, 4, 30, "d.so"), (3, 8, 30, "b.so")],
        "threads": [(0, 0, 30)],
    },
    "close_and_busy": {
        "calls": [],
        "marks": [
            ("module-0", "load", 0), ("module-1", "load", 4), ("module-1", "gone", 20), ("module-1", "load", 28),
            ("thread-0", "open", 4), ("thread-0", "sym", 8), ("thread-0", "start", 11), ("thread-0", "close refused", 14),
            ("thread-1", "done", 18), ("thread-0", "close", 20), ("thread-0", "close refused", 22),
            ("thread-0", "close refused", 24), ("thread-0", "open", 28), ("thread-0", "exit", 30),
        ],
        "modules": [(0, 0, 30, "P"), (1, 4, 20, "c.so"), (1, 28, 30, "d.so")],
        "threads": [(0, 0, 30), (1, 11, 18)],
    },
    "weak_none_faults": {
        "calls": [("thread-0", "lost", 1, 5, None, "prog 0 -> ?")],
        "marks": [("module-0", "load", 0), ("thread-0", "stop", 5)],
        "modules": [(0, 0, 5, "prog")],
        "threads": [(0, 0, 5)],
    },
    "step_limit": {
        "calls": [("thread-0", "bound", 1, 5, None, "prog 0 -> foo.so+0x0")],
        "marks": [("module-0", "load", 0), ("module-1", "load", 0), ("run", "limit", 7)],
        "modules": [(0, 0, 7, "prog"), (1, 0, 7, "foo.so")],
        "threads": [(0, 0, 7)],
    },
}

UNEXPLAINED = {"legend", "call", "mark", "bind", "row", "lane", "life", "grid"}

# Reports that aren't well formed, each with its first wrong line.
LOADED = "load 0 prog\nload 1 foo.so\n"
MALFORMED = {
    "nothing": ("", 1),
    "no end": (LOADED + "enter 1 0 0 0\n", 4),
    "last line not ended": (LOADED + "exit 8 0 7", 3),
    "another program": ("load 1 prog\nexit 8 0 7\n", 1),
    "unknown word": (LOADED + "leave 1 0 0 0\nexit 8 0 7\n", 3),
    "field missing": (LOADED + "enter 1 0 0\nexit 8 0 7\n", 3),
    "field too much": (LOADED + "enter 1 0 0 0 0\nexit 8 0 7\n", 3),
    "two spaces": (LOADED + "enter 1  0 0 0\nexit 8 0 7\n", 3),
    "space at the end": (LOADED + "enter 1 0 0 0 \nexit 8 0 7\n", 3),
    "empty line": (LOADED + "\nexit 8 0 7\n", 3),
    "carriage return": ("load 0 prog\r\nexit 8 0 7\r\n", 1),
    "leading zero": (LOADED + "enter 01 0 0 0\nexit 8 0 7\n", 3),
    "number of 33 bits": (LOADED + "exit 4294967296 0 7\n", 3),
    "sign": (LOADED + "exit 8 0 -7\n", 3),
    "short address": (LOADED + "enter 1 0 0 0\narrive 5 0 1 0x0\nexit 8 0 7\n", 4),
    "upper-case digits": (LOADED + "enter 1 0 0 0\narrive 5 0 1 0x0000000A\nexit 8 0 7\n", 4),
    "odd digits put out": (LOADED + "out 1 0 abc\nexit 8 0 7\n", 3),
    "name not as shown": (LOADED + "load 2 a%g0\nexit 8 0 7\n", 3),
    "unknown stop": (LOADED + "stop 1 0 tired\n", 3),
    "steps fall": (LOADED + "enter 4 0 0 0\narrive 3 0 1 0x00000000\nexit 8 0 7\n", 4),
    "thread doesn't live": (LOADED + "enter 1 1 0 0\nexit 8 0 7\n", 3),
    "thread is done": (LOADED + "done 1 0 7\nenter 2 0 0 0\nend 2\n", 4),
    "thread lives already": (LOADED + "start 1 0 ok 0\nexit 8 0 7\n", 3),
    "thread lives at the end": (LOADED + "end 1\n", 3),
    "module of a call isn't loaded": (LOADED + "enter 1 0 2 0\nexit 8 0 7\n", 3),
    "module of an arrival isn't loaded": (LOADED + "enter 1 0 0 0\narrive 5 0 2 0x00000000\nexit 8 0 7\n", 4),
    "module is loaded already": ("load 0 prog\nload 0 foo.so\nexit 8 0 7\n", 2),
    "module went before": (LOADED + "close 4 0 1 ok\ngone 1\ngone 1\nexit 8 0 7\n", 5),
    "gone without a close": (LOADED + "gone 1\nexit 8 0 7\n", 3),
    "gone after a refused close": (LOADED + "close 4 0 1 no 33\ngone 1\nexit 8 0 7\n", 4),
    "load without an open": (LOADED + "enter 1 0 0 0\nload 2 a.so\nexit 8 0 7\n", 5),
    "init apart from its load": (LOADED + "skipped init 0\nexit 8 0 7\n", 3),
    "arrival without a call": (LOADED + "arrive 5 0 1 0x00000000\nexit 8 0 7\n", 3),
    "arrival too early": (LOADED + "enter 1 0 0 0\narrive 4 0 1 0x00000000\nexit 8 0 7\n", 4),
    "arrival too early behind a bind": (
        LOADED + "enter 1 0 0 0\nbind 10 0 0 1 0x00000000\narrive 11 0 1 0x00000000\nexit 15 0 7\n", 5,
    ),
    "one call arrives twice": (LOADED + "enter 1 0 0 0\narrive 5 0 1 0x00000000\narrive 9 0 1 0x00000000\nexit 15 0 7\n", 5),
    "arrival of another thread": (LOADED + "start 1 0 ok 1\nenter 2 0 0 0\narrive 9 1 1 0x00000000\nexit 15 0 7\n", 5),
    "limit behind the last thread": (LOADED + "done 1 0 7\nlimit 1\n", 4),
    "line behind the end": (LOADED + "exit 8 0 7\nexit 8 0 7\n", 4),
}


class Timelines(Pictures):
    def assert_same(self, drawn_items, items):
        """The same items in any order."""
        self.assertEqual(sorted(drawn_items), sorted(items))

    def test_worked_reports(self):
        """Stored reports have the calls, marks, modules and threads of the table, and no others."""
        for name, worked in WORKED.items():
            with self.subTest(name):
                picture = Timeline(timeline(report_of(name)))
                calls = [(it.lane, it.kind, it.start, it.end, it.told[0]) for it in picture.calls()]
                self.assert_same(calls, [(*it[:4], it[5]) for it in worked["calls"]])
                self.assert_same(picture.ticks_of_binds(), [(it[0], it[4]) for it in worked["calls"] if it[4] is not None])
                self.assert_same([it[:3] for it in picture.marks()], worked["marks"])
                modules = [(it.lane, it.start, it.end, it.told[0].split(":")[0]) for it in picture.bars("module")]
                self.assert_same(modules, [(f"module-{it[0]}", *it[1:3], f"module {it[0]}, {it[3]}") for it in worked["modules"]])
                threads = [(it.lane, it.start, it.end) for it in picture.bars("life")]
                self.assert_same(threads, [(f"thread-{it[0]}", *it[1:]) for it in worked["threads"]])

    def test_every_line_is_drawn_once(self):
        """Each call has one bar from its step on, in its lane, each arrival is the end of one at the place that it names, and
        each other line is one mark or tick."""
        for name, report in reports():
            with self.subTest(name):
                picture = Timeline(timeline(report))
                calls = picture.calls()
                self.assertEqual([it for it in calls if "narrow" in it.kind], [])
                enters = [(f"thread-{it[2]}", int(it[1])) for it in events(report, "enter")]
                self.assert_same([(it.lane, it.start) for it in calls], enters)
                modules = {it[1]: it[2] for it in events(report, "load")}
                arrivals = [(it[2], int(it[1]), f"{modules[it[3]]}+{int(it[4], 16):#x}") for it in events(report, "arrive")]
                ends = [(it.lane, it.end, it.told[0].split(" -> ")[1]) for it in calls if it.kind != "lost"]
                self.assert_same(ends, [(f"thread-{it[0]}", *it[1:]) for it in arrivals])
                self.assert_marks(report, picture)

    def assert_marks(self, report, picture):
        marks = list(picture.marks())
        for word in ("out", "open", "sym", "close", "start", "done", "exit", "stop"):
            lines = [(f"thread-{it[2]}", int(it[1])) for it in events(report, word)]
            self.assert_same([(lane, step) for lane, kind, step, _ in marks if kind.split()[0] == word], lines)
        for word in ("end", "limit"):
            self.assert_same([step for _, kind, step, _ in marks if kind == word], [int(it[1]) for it in events(report, word)])
        binds = [step for _, step in picture.ticks_of_binds()] + [step for _, kind, step, _ in marks if kind == "bind"]
        self.assert_same(binds, [int(it[1]) for it in events(report, "bind")])
        for word in ("load", "gone"):
            lanes = [lane for lane, kind, _, _ in marks if kind == word]
            self.assertEqual(sorted(lanes), sorted(f"module-{it[1]}" for it in events(report, word)))

    def test_no_step(self):
        """A run that stops at once has its marks at step 0, and its module and its thread a pixel there."""
        picture = Timeline(timeline(report_of("service_stops")))
        self.assert_same([it[:3] for it in picture.marks()], [("module-0", "load", 0), ("thread-0", "stop", 0)])
        for bar in [*picture.bars("module"), *picture.bars("life")]:
            self.assertEqual((bar.start, round((bar.end - bar.start) * picture.unit)), (0, 1))

    def test_all_forms_of_lines(self):
        """A report with every form of a line but for the ends is drawn."""
        report = (
            "load 0 p%20q\nskipped init 0\nopen 1 0 - no 10\nout 2 0 -\nout 3 0 00ff\nsym 4 0 7 x no 21\nclose 5 0 7 no 31\n"
            "load 1 a.so\nskipped init 1\nopen 6 0 a.so ok 1\nbind 7 0 0 none\nbind 7 1 0 1 0x00000010\nstart 7 0 no 42\n"
            "sym 8 0 0 f ok 0x00003000\nclose 9 0 1 ok\ngone 1\nstart 10 0 ok 1\ndone 11 1 4294967295\n"
        )
        marks = [("open refused", 1), ("out", 2), ("out", 3), ("sym refused", 4), ("close refused", 5), ("open", 6)]
        marks += [("start refused", 7), ("sym", 8), ("close", 9), ("start", 10)]
        words = [f"{it} 0x0000ffff" for it in ("stray", "fault", "unaligned", "undefined")]
        for end in (*words, "service 99", "resolve"):
            with self.subTest(end):
                picture = Timeline(timeline(f"{report}stop 12 0 {end}\n"))
                drawn_marks = [(kind, step) for lane, kind, step, _ in picture.marks() if lane == "thread-0" and kind != "bind"]
                self.assert_same(drawn_marks, [*marks, ("stop", 12)])
                stops = [text for _, kind, _, text in picture.marks() if kind == "stop"]
                self.assertEqual(stops, [[f"step 12, thread 0: stop {end}"]])
        # both binds at step 7 are one mark
        self.assertEqual([(step, len(text)) for _, kind, step, text in picture.marks() if kind == "bind"], [(7, 2)])
        self.assertIn("its constructors and destructors skipped", "".join(next(picture.bars("module")).told))

    def test_malformed_reports(self):
        """A report that isn't well formed is refused by its first wrong line."""
        for name, (report, line) in MALFORMED.items():
            with self.subTest(name):
                self.assert_refused(["tools/timeline", "-"], f"timeline: -: line {line}: ", text=report)

    def test_missing_report(self):
        self.assert_refused(["tools/timeline", "tests/reports/none.txt"], "timeline: ")

    def test_many_lines(self):
        """100,000 lines are drawn in less than ten seconds, and the merged calls have their numbers."""
        report, calls = long_report(100_000)
        self.assertEqual(report.count("\n"), 100_000)
        before = resource.getrusage(resource.RUSAGE_CHILDREN)
        picture = Timeline(timeline(report))
        after = resource.getrusage(resource.RUSAGE_CHILDREN)
        self.assertLess(after.ru_utime + after.ru_stime - before.ru_utime - before.ru_stime, 10)
        found = Counter()
        for bar in picture.calls():
            # each is a pixel wide, in which its calls begin
            count, kind, thread, first, last = merged(bar)
            found[thread, kind] += count
            self.assertEqual((bar.lane, bar.kind), (f"thread-{thread}", f"{kind} narrow"))
            self.assertAlmostEqual((bar.end - bar.start) * picture.unit, 1, delta=NEAR)
            self.assertTrue(bar.start <= first and last < bar.end + 11, bar)
        self.assertEqual(found, calls)

    def test_texts(self):
        """Texts don't meet, in any width, and stand out from their ground in light and dark."""
        for name, report in [*reports(), ("many modules", many_modules()), ("many lines", long_report(2_000)[0])]:
            for width in ("480", "720"):
                with self.subTest(name, width=width):
                    root = timeline(report, "--width", width)
                    self.assert_legible(root)
                    self.assert_readable(root)

    def test_legend(self):
        """What a picture has the legend explains, and nothing else."""
        for name, report in reports():
            with self.subTest(name):
                root = timeline(report)
                legend = {it for element in elements(root, "g", "legend")[0].iter() for it in classes(element)}
                used = {it for row in elements(root, "g", "row") for element in row.iter() for it in classes(element)}
                used |= {word for _, kind, _, _ in Timeline(root).marks() for word in kind.split()}
                if not any("narrow" in it.kind for it in Timeline(root).calls()):
                    used.discard("narrow")
                self.assertEqual(legend - UNEXPLAINED, used - UNEXPLAINED)

    def test_symbols(self):
        """Where objects are given, calls are named by their symbols. A slot is bound by its name, so in the real programs the
        function where a call arrives has the name of its slot."""
        for name in REAL_PROGRAMS:
            with self.subTest(name):
                status, report, _ = run("sh", "-c", f'cd "{REAL}" && "{PROGRAM}" run {name}.job')
                self.assertEqual(status, 0)
                named = Timeline(timeline(report, "--objects", REAL, "--fdpic", PROGRAM)).calls()
                plain = Timeline(timeline(report)).calls()
                self.assertEqual([it[1:3] for it in events(report, "enter")], [[str(it.start), it.lane[7:]] for it in named])
                for with_names, without in zip(named, plain):
                    module, symbol, target, function = re.fullmatch("(.*) (.*) -> (.*) (.*)", with_names.told[0]).groups()
                    self.assertEqual(symbol, function)
                    plain_name = re.fullmatch(r"(.*) \d+ -> (.*)\+0x[0-9a-f]+", without.told[0])
                    self.assertEqual((module, target), plain_name.groups())

    def test_symbols_by_hand(self):
        """Slots without a name keep their number, and addresses without a function theirs."""
        shown = {
            "show prog": "object exec entry 0x00000000 got 0x00010000\nsymbol 0 - local notype default undef 0x00000000 0\n"
            "symbol 1 foo global notype default undef 0x00000000 0\njmprel 0 0x0001000c 164 0\njmprel 1 0x00010014 164 1\n",
            "show foo.so": "object dyn entry 0x00000000 got 0x00010000\nsymbol 0 - local notype default undef 0x00000000 0\n"
            "symbol 1 datum global object default here 0x00000010 4\nsymbol 2 foo global func default here 0x00000020 0\n",
        }
        report = LOADED + "enter 1 0 0 0\narrive 5 0 1 0x00000010\nenter 6 0 0 1\narrive 10 0 1 0x00000020\nexit 12 0 7\n"
        with tempfile.TemporaryDirectory() as folder:
            words = ["--objects", folder, "--fdpic", told_fdpic(folder, shown)]
            names = [it.told[0] for it in Timeline(timeline(report, *words)).calls()]
            self.assertEqual(names, ["prog 0 -> foo.so+0x10", "prog foo -> foo.so foo"])
            report = report.replace("foo.so", "a.so")
            self.assert_refused(["tools/timeline", *words, "-"], "timeline: fdpic: no file a.so", text=report)

    def test_help(self):
        for tool in ("timeline", "memory"):
            status, shown, _ = run(f"tools/{tool}", "--help")
            self.assertEqual(status, 0)
            self.assertIn("--objects FOLDER", shown)
            self.assertIn("--fdpic PATH", shown)


def merged(bar):
    """The number of calls of a bar, their kind, their thread, the first step and the last."""
    if alone := re.match(r"thread (\d+): enters at step (\d+), (has its slot bound)?.*arrives at step (\d+)", bar.told[1]):
        return 1, "lazy" if alone[3] else "bound", alone[1], int(alone[2]), int(alone[4])
    said = re.match(r"(\d+) (\w+) calls of thread (\d+), steps (\d+) to (\d+)", bar.told[0])
    by_name = sum(int(it.split(" x ")[0]) for it in bar.told[1:])
    assert by_name == int(said[1]), bar
    return by_name, said[2], said[3], int(said[4]), int(said[5])


def long_report(lines):
    """A report with so many lines, and its calls by thread and kind: two threads that call in turn, and put out a byte."""
    texts = ["load 0 prog", "load 1 foo.so", "enter 1 0 0 0", "bind 10 0 0 1 0x00000000", "arrive 12 0 1 0x00000000"]
    texts += ["start 13 0 ok 1"]
    step, calls = 13, Counter({("0", "lazy"): 1})
    while len(texts) + 4 < lines:
        thread = len(texts) // 3 % 2
        texts += [f"enter {step + 1} {thread} 0 {step % 7}", f"arrive {step + 5} {thread} 1 0x{step % 7 * 16:08x}"]
        texts += [f"out {step + 7} {thread} 00"]
        calls[str(thread), "bound"] += 1
        step += 8
    texts += [f"out {step + 1} 0 -"] * (lines - len(texts) - 1)
    return "\n".join([*texts, f"exit {step + 2} 0 7\n"]), calls


def many_modules():
    """A report in which forty modules with long names are there."""
    loads = "".join(f"load {it} {'a_long_name_of_a_library' * 9}_{it}.so\n" for it in range(1, 40))
    calls = "".join(f"enter {it * 6} 0 {it} {it}\narrive {it * 6 + 4} 0 {it - 1} 0x{it:08x}\n" for it in range(1, 40))
    return f"load 0 prog\n{loads}{calls}exit 300 0 0\n"


# ---- tools/memory


def told_fdpic(folder, answers):
    """A program in the place of fdpic that prints these answers, by its words, and else says that there is no file."""
    path = pathlib.Path(folder, "fdpic")
    path.write_text(
        f"#!{sys.executable}\nimport sys\nanswers = {answers!r}\nwords = ' '.join(sys.argv[1:])\n"
        "if words not in answers:\n    sys.exit('fdpic: no file ' + sys.argv[-1])\nprint(answers[words], end='')\n"
    )
    path.chmod(0o755)
    return path


@dataclass(frozen=True)
class Row:
    """A region of a drawn memory: what its line says."""

    address: int
    name: str
    flags: str
    linked: str
    size: int
    note: str


class Memory:
    """A drawn memory."""

    def __init__(self, root):
        self.root = root
        self.groups = elements(root, "g", "row")
        self.rows = [row_of(it) for it in self.groups]

    def placed(self):
        return {it.name: it.address for it in self.rows if " segment " in it.name}


def row_of(group):
    said = {classes(it)[0]: it.text for it in elements(group, "text")}
    size = int(said["size"].replace(",", ""))
    return Row(int(said["address"], 16), said["name"], said.get("flags", ""), said.get("linked", ""), size, said.get("note", ""))


# The memory of examples/prog.job, by hand: the job has the addresses of texts and data, and examples/foo.s and examples/prog.s
# the words. `prog` has 2 words of text and 10 of a PLT entry; its data is the GOT: a header of 12 bytes, and a slot of 8. `foo.so`
# has 2 words, and the header alone. Tables are placed at the least legal addresses, multiples of 16: those of `prog`, with 3 symbols,
# are 8 words of hashes, 48 bytes of symbols, 19 of names, 8 of a relocation and 88 of the dynamic section, each at a multiple of 4;
# those of `foo.so`, with 2 symbols, 6 words, 32, 12 and 64 bytes. 64 descriptor slots of 8 bytes end at 0x3200, and 8 stacks of
# 1,024 begin at 0x100000 - 0x2000.
EXAMPLE = ("as foo.o foo.s", "link foo.so shared foo.o", "as prog.o prog.s", "link prog program lib=foo.so prog.o")
PROG_ROWS = [
    (0x0, "unused", "", "", 0x1000),
    (0x1000, "stubs", "r-x", "", 20),
    (0x1014, "unused", "", "", 0x3EC),
    (0x1400, "64 load maps", "r--", "", 0x1C00),
    (0x3000, "64 descriptor slots", "r--", "", 0x200),
    (0x3200, "0 prog segment 2", "r--", "0x00011000", 196),
    (0x32C4, "free", "", "", 0xC),
    (0x32D0, "1 foo.so segment 2", "r--", "0x00011000", 132),
    (0x3354, "free", "", "", 0x1CCAC),
    (0x20000, "0 prog segment 0", "r-x", "0x00000000", 48),
    (0x20030, "free", "", "", 0xFFD0),
    (0x30000, "0 prog segment 1", "rw-", "0x00010000", 20),
    (0x30014, "free", "", "", 0xFFEC),
    (0x40000, "1 foo.so segment 0", "r-x", "0x00000000", 8),
    (0x40008, "free", "", "", 0xFFF8),
    (0x50000, "1 foo.so segment 1", "rw-", "0x00010000", 12),
    (0x5000C, "free", "", "", 0xADFF4),
    (0xFE000, "8 stacks of 1,024", "rw-", "", 0x2000),
]


def shown_object(segments, got, needed=(), slots=0):
    """What `show` prints of an object: link address, size, flags and alignment of each segment; slots are behind the GOT, all
    on symbol 1, `foo`."""
    lines = [f"object dyn entry 0x00000000 got 0x{got:08x}"]
    lines += [f"segment {k} 0x{it[0]:08x} 0x{it[1]:08x} 0x{it[1]:08x} {it[2]} {it[3]}" for k, it in enumerate(segments)]
    lines += [f"needed {it}" for it in needed]
    lines += ["symbol 0 - local notype default undef 0x00000000 0"]
    lines += [f"symbol 1 foo global func default {'undef' if slots else 'here'} 0x00000000 0"]
    lines += [f"jmprel {k} 0x{got + 12 + 8 * k:08x} 164 1" for k in range(slots)]
    return "\n".join(lines) + "\n"


class Memories(Pictures):
    def memory(self, job, answers):
        """The memory of a job, by a program in the place of fdpic."""
        with tempfile.TemporaryDirectory() as folder:
            pathlib.Path(folder, "a.job").write_text(job)
            return Memory(drawn("tools/memory", "--objects", folder, "--fdpic", told_fdpic(folder, answers), "a.job"))

    def real_memory(self, name):
        return Memory(drawn("tools/memory", "--objects", REAL, "--fdpic", PROGRAM, f"{name}.job"))

    def test_listed_places(self):
        with tempfile.TemporaryDirectory() as folder:
            for name in ("foo.s", "prog.s", "prog.job"):
                shutil.copy(TOP / "examples" / name, folder)
            for words in EXAMPLE:
                subprocess.run([PROGRAM, *words.split(" ")], cwd=folder, check=True)
            picture = Memory(drawn("tools/memory", "--objects", folder, "--fdpic", PROGRAM, "prog.job"))
        self.assertEqual([(it.address, it.name, it.flags, it.linked, it.size) for it in picture.rows], PROG_ROWS)
        notes = [(it.name, it.note) for it in picture.rows if it.note]
        of_prog = ("0 prog segment 1", "GOT at 0x00030000, 1 slot from 0x0003000c")
        self.assertEqual(notes, [of_prog, ("1 foo.so segment 1", "GOT at 0x00050000")])

    def test_lowest_legal_addresses(self):
        """Between 0x3200 and 0xf0000 a segment linked at 0x10f0c with alignment 0x10000 goes to 0x3f0c, then one linked at 0 with
        alignment 1 to 0x3200."""
        shown = shown_object([(0x10F0C, 0x20, 6, 0x10000), (0, 0x30, 5, 1)], got=0x10F0C)
        picture = self.memory("fdpic-job 1\nprogram p\nmemory 0xf2000\n", {"bind a.job": "", "show p": shown})
        self.assertEqual(picture.placed(), {"0 p segment 0": 0x3F0C, "0 p segment 1": 0x3200})
        self.assertIn((0xF0000, "8 stacks of 1,024"), [(it.address, it.name) for it in picture.rows])

    def test_segments_linked_side_by_side(self):
        """The link address at which one segment ends and another begins is placed with the other."""
        shown = shown_object([(0xFF00, 0x100, 5, 16), (0x10000, 0x20, 6, 4096)], got=0x10000)
        picture = self.memory("fdpic-job 1\nprogram p\n", {"bind a.job": "", "show p": shown})
        self.assertEqual(picture.placed(), {"0 p segment 0": 0x3200, "0 p segment 1": 0x4000})
        self.assertEqual([(it.name, it.note) for it in picture.rows if it.note], [("0 p segment 1", "GOT at 0x00004000")])

    def test_order_of_the_walk(self):
        """Modules are numbered and placed breadth first, each once: b and c, then d, which b needs, then e, which c needs."""
        text = [(0, 0x20, 5, 16), (0x10000, 0x10, 6, 16)]
        needed = {"a": ["b", "c"], "b": ["d", "a"], "c": ["e", "d"], "d": [], "e": ["b"]}
        answers = {"bind a.job": "", **{f"show {it}": shown_object(text, 0x10000, needs) for it, needs in needed.items()}}
        placed = {f"{k} {it} segment 0": 0x3200 + 0x30 * k for k, it in enumerate("abcde")}
        placed |= {f"{k} {it} segment 1": 0x3220 + 0x30 * k for k, it in enumerate("abcde")}
        self.assertEqual(self.memory("fdpic-job 1\nprogram a\n", answers).placed(), placed)

    def test_places_listed_in_part(self):
        """A segment behind the last of a place line is placed at the lowest legal address, and further addresses are ignored; what
        a job says otherwise moves the bounds: 3 descriptor slots end at 0x3018, and modules begin at 0x3020."""
        text = [(0, 0x20, 5, 16), (0x10000, 0x10, 6, 16)]
        answers = {"bind a.job": "", "show a%": shown_object(text, 0x10000, ["b%20c"]), "show b c": shown_object(text, 0x10000)}
        job = "fdpic-job 1\n# a comment\n\nprogram   a%\ndescriptors 3\nstack 256\nmemory 65536\n"
        job += "place a% 0x8000\nplace b 0x9000\nmode lazy\n"
        picture = self.memory(job, answers)
        self.assertEqual(
            picture.placed(),
            {"0 a%25 segment 0": 0x8000, "0 a%25 segment 1": 0x3020, "1 b%20c segment 0": 0x3030, "1 b%20c segment 1": 0x3050},
        )
        self.assertIn((0x10000 - 8 * 256, "8 stacks of 256"), [(it.address, it.name) for it in picture.rows])

    def test_disagreement(self):
        """Where the slots that are printed don't lie and lead where the segments are placed, nothing is drawn. By the rule p's text
        is at 0x3200, its data at 0x3220, its slot at 0x322c, foo's text at 0x3240 and its GOT at 0x3260."""
        program = shown_object([(0, 0x20, 5, 16), (0x10000, 0x20, 6, 16)], 0x10000, ["foo"], slots=1)
        library = shown_object([(0, 0x20, 5, 16), (0x10000, 0x20, 6, 16)], 0x10000)
        agreed = "slot 0 0 0x0000322c 0x00003240 0x00003260\n"
        answers = {"show p": program, "show foo": library}
        job = "fdpic-job 1\nprogram p\n"
        self.assertEqual(len(self.memory(job, {**answers, "bind a.job": agreed}).placed()), 4)
        weak = "slot 0 0 0x0000322c 0x00000000 0x00000000\n"
        self.assertEqual(len(self.memory(job, {**answers, "bind a.job": weak}).placed()), 4)
        for bound, said in {
            "slot 0 0 0x00003234 0x00003240 0x00003260\n": "memory: slot 0 of module 0 lies at 0x00003234",
            "slot 0 0 0x0000322c 0x00003260 0x00003260\n": "memory: slot 0 of module 0 leads to 0x00003260, and foo has no code",
            "slot 0 0 0x0000322c 0x00003244 0x00003260\n": "memory: slot 0 of module 0 leads to 0x00003244, and foo has no foo",
            "slot 0 0 0x0000322c 0x00003240 0x00003264\n": "memory: slot 0 of module 0 has the GOT 0x00003264",
            "": "memory: module 0 has other slots",
            agreed + agreed: "memory: module 0 has other slots",
            agreed + agreed.replace("slot 0 0", "slot 0 1"): "memory: slot 1 of module 0 is printed by `bind`, and",
            agreed + agreed.replace("slot 0 0", "slot 2 0"): "memory: slot 0 of module 2 is printed by `bind`, and",
        }.items():
            with self.subTest(bound), tempfile.TemporaryDirectory() as folder:
                pathlib.Path(folder, "a.job").write_text(job)
                program = told_fdpic(folder, {**answers, "bind a.job": bound})
                self.assert_refused(["tools/memory", "--objects", folder, "--fdpic", program, "a.job"], said)

    def test_refused_jobs(self):
        """What fdpic refuses isn't drawn."""
        with tempfile.TemporaryDirectory() as folder:
            for text, said in {
                "fdpic-job 2\n": "memory: fdpic: job First line 1",
                "fdpic-job 1\nprogram none\n": "memory: fdpic: load NoFile none",
            }.items():
                pathlib.Path(folder, "a.job").write_text(text)
                self.assert_refused(["tools/memory", "--objects", folder, "--fdpic", PROGRAM, "a.job"], said)
            words = ["tools/memory", "--objects", folder, "--fdpic", PROGRAM, "none.job"]
            self.assert_refused(words, "memory: fdpic: no file none.job")
            self.assert_refused(["tools/memory", "--objects", folder, "--fdpic", f"{folder}/none", "a.job"], "memory: ")

    def test_real_programs(self):
        """In real programs, which list no place, each slot that is listed in tests/real lies in a drawn segment of data of its module,
        and leads to one of code of the module that has the GOT."""
        for name in REAL_PROGRAMS:
            rows = self.real_memory(name).rows
            for line in (TOP / f"tests/real/{name}.bind").read_text().splitlines():
                with self.subTest(name, line=line):
                    _, module, _, *addresses = line.split(" ")
                    address, code, got = (int(it, 16) for it in addresses)
                    self.assert_inside(rows, module, "rw-", address, 8)
                    if code:
                        target = next(it.name.split(" ")[0] for it in rows if it.note.startswith(f"GOT at 0x{got:08x}"))
                        self.assert_inside(rows, target, "r-x", code, 4)

    def assert_inside(self, rows, module, flags, address, size):
        inside = [it for it in rows if it.address <= address and address + size <= it.address + it.size]
        self.assertEqual([(it.name.split(" ")[0], it.flags) for it in inside], [(module, flags)])

    def test_all_of_memory(self):
        """The regions follow each other from 0 to the end, and the strip has each to scale."""
        for name in REAL_PROGRAMS:
            with self.subTest(name):
                picture = self.real_memory(name)
                at = 0
                for row in picture.rows:
                    self.assertEqual(row.address, at)
                    at += row.size
                self.assertEqual(at, 1048576)
                self.assert_scaled(picture)

    def assert_scaled(self, picture):
        parts = [elements(it, "rect", "part")[0] for it in picture.groups]
        top, end = number(parts[0], "y"), number(parts[-1], "y") + number(parts[-1], "height")
        for part, row in zip(parts, picture.rows):
            self.assertAlmostEqual(number(part, "y"), top + (end - top) * row.address / 1048576, delta=0.02)
            self.assertAlmostEqual(number(part, "height"), (end - top) * row.size / 1048576, delta=0.02)

    def test_texts(self):
        text = [(0, 0x20, 5, 16), (0x10000, 0x10, 6, 16)]
        names = ["x" * 255, *(f"a_rather_long_name_{it}.so" for it in range(62))]
        answers = {f"show {it}": shown_object(text, 0x10000) for it in names}
        answers |= {"bind a.job": "", "show a": shown_object(text, 0x10000, names)}
        many = self.memory("fdpic-job 1\nprogram a\ndescriptors 4096\nmemory 8388608\nstack 65536\n", answers)
        for picture in [many, *map(self.real_memory, REAL_PROGRAMS)]:
            self.assert_legible(picture.root)
            self.assert_readable(picture.root)


class Stored(unittest.TestCase):
    def test_pictures_of_the_readme(self):
        """The stored pictures are those that tools/pictures draws."""
        with tempfile.TemporaryDirectory() as folder:
            ran = subprocess.run(["tools/pictures", folder], cwd=TOP, env={**os.environ, "FDPIC": PROGRAM}, check=False)
            self.assertEqual(ran.returncode, 0)
            for name in ("run.svg", "memory.svg"):
                self.assertEqual(pathlib.Path(folder, name).read_bytes(), (TOP / "docs" / name).read_bytes(), name)


if __name__ == "__main__":
    unittest.main()
