#!/usr/bin/env python3
"""Tries the page in a real browser: clicks through what it can do, and compares what it shows with `jvm debug` and `jvm run`.

Usage: page_test.py [--page FILE] [--jvm PROGRAM] [--playground PROGRAM] [--moments N] [--pictures FOLDER] [--gate]
    [--module MODULE.bc] [WORD ..]

Without --page a page is built first (tools/page.py). Each example is looked at at some forty moments of its run. With WORDs only
the tests whose names have one of them are made. --pictures keeps pictures. Needs Debian's chromium and chromium-driver; where
they are missing it says `page: not tested, no browser`, and that counts as skipped.

With --gate, which is for a call beside `rt ci` in the same checkout, once it has proved `jvm` and `playground`, or after it, a
missing browser is installed where that can be done, and the page is of the program that `rt ci` proved, compiled at -O1 for the
sake of time; each example is looked at at ten moments. --module is the module of that program, if it was caught
(tools/catch_module.py); where there is none, `main` is proved once more (tools/page.py).

The last line is 'N passed, M failed', with ', K skipped' where there are some; the status is 1 where something failed.
"""
import argparse
import base64
import contextlib
import json
import os
import re
import signal
import subprocess
import sys
import tempfile
import time

from browser import Browser, NoBrowser, installed
from plain.machine import World
from plain.programs import class_file_of
from plain.run_classes import class_of

ROOT = os.path.dirname(os.path.dirname(os.path.abspath(__file__)))
LIMIT = 120
# so many rows of a run are made by the plain machine too
ROWS_PLAIN = 20000
# what the page shows, as it stands in its elements
SHOWN = """
const lines = (css) => [...document.querySelectorAll(css)].map((it) => it.textContent);
return {
  state: JSON.parse($("status").dataset.state ?? "null"), status: $("status").textContent,
  threads: [...document.querySelectorAll("#threads [data-thread]")].map((it) => ({
    number: Number(it.dataset.thread), head: it.querySelector("h3").textContent,
    lines: [...it.querySelectorAll(".lines > div")].map((line) => line.textContent) })),
  cells: [...document.querySelectorAll("#heap [data-cell]")].map((it) => it.getAttribute("aria-label")),
  lists: Object.fromEntries([...document.querySelectorAll("#lists [data-list]")].map((it) => [it.dataset.list, [...it.querySelectorAll("[data-listed]")].map((one) => Number(one.dataset.listed))])),
  statics: lines("#statics .static"), classes: lines("#statics .class-state"), phase: $("phase").dataset.phase,
  output: $("output").textContent, journal: [...document.querySelectorAll("#journal [data-row]")].map((it) => [Number(it.dataset.row), it.dataset.text ?? ""]),
  chosen: Number(document.querySelector('#journal [aria-selected="true"]')?.dataset.row), refusal: $("refusal").textContent,
  refused: Number(document.querySelector("#gutter .refused")?.dataset.line ?? 0), at: page.at, total: rowsOf(page.moves), busy: page.busy,
  marks: [...document.querySelectorAll("#gutter .here")].map((it) => [Number(it.dataset.line), ...[...it.querySelectorAll(".who")].map((who) => Number(who.textContent))]),
};
"""
COUNTER_LOOP = """.class public Loop
.super java/lang/Object
.method public static main()V
.limit stack 1
.limit locals 1
Again:
iinc 0 1
goto Again
.end method
""".replace("Again:", "iconst_0\nistore_0\nAgain:")
MARKUP = """.class public Markup
.super java/lang/Object
.method public static main()V
.limit stack 1
.limit locals 0
%s
return
.end method
""" % "\n".join(f"bipush {ord(letter)}\ninvokestatic vm/Sys/putc(I)V" for letter in "<img src=x onerror=alert(1)><b>&amp;")


class Skipped(Exception):
    """Why something can't be tried here."""


class NoPage(Exception):
    """Why there is no page to test."""


class Tried(Exception):
    """A test that failed, and how."""


def same(seen, wanted, what=""):
    if seen != wanted:
        raise Tried(f"{what}{': ' if what else ''}{str(seen)[:300]!r}, and not {str(wanted)[:300]!r}")


def holds(condition, what):
    if not condition:
        raise Tried(what)


class Page:
    """The page in a browser."""

    def __init__(self, browser, path, given, room):
        """given: what the command line says."""
        self.browser, self.path, self.room = browser, path, room
        self.jvm, self.playground, self.moments, self.pictures = given.jvm, given.playground, given.moments, given.pictures
        # how long a seek may take, in ms: beside proofs it waits for a processor
        self.seek = 5000 if given.gate else 500
        self.open()

    def open(self, fragment=""):
        self.browser.open("about:blank")
        self.browser.open(f"file://{self.path}{fragment}")
        self.until("document.body.dataset.ready === 'yes'")

    def until(self, condition, limit=LIMIT):
        began = time.time()
        while not self.browser.run(f"return Boolean({condition})"):
            if time.time() - began > limit:
                raise Tried(f"it never came to {condition}; status {self.browser.run('return document.getElementById(`status`).textContent')!r}")
            time.sleep(0.02)

    def settled(self):
        """What is shown, once nothing runs any more."""
        self.until("!page.busy && (page.view === null || Number($('row').value) === page.at)")
        self.later("setTimeout(() => done(0), 30)")
        self.until("!page.busy")
        return self.browser.run(SHOWN)

    def later(self, script, *words):
        return self.browser.later(f"const done = arguments[arguments.length - 1]; {script}", *words)

    def click(self, css):
        self.browser.click(css)
        return self.settled()

    def key(self, key):
        self.browser.run("document.activeElement.blur()")
        self.browser.keys(key)
        return self.settled()

    def example(self, name):
        self.browser.run("$('examples').value = arguments[0]; $('examples').dispatchEvent(new Event('change'))", name)
        self.until("page.busy || page.view || page.refusal")
        return self.settled()

    def loaded(self, action):
        """What is shown once the program was loaded anew, as an action has it be sooner or later."""
        before = self.browser.run("return page.generation")
        action()
        self.until(f"page.generation > {before}")
        return self.settled()

    def change(self, **fields):
        """Sets fields of the machine."""
        script = "for (const [id, value] of Object.entries(arguments[0])) { $(id).value = value; $(id).dispatchEvent(new Event('change')); }"
        return self.loaded(lambda: self.browser.run(script, fields))

    def take(self, text, name="a.j", **shape):
        self.later("take([{name: arguments[1], text: arguments[0]}], {shape: arguments[2], limits: LIMITS}).then(() => done(0))", text, name, {"small": 8, "medium": 2, "large": 1, **shape})
        return self.settled()

    def go(self, row):
        self.later("go(arguments[0]).then(() => done(0))", row)
        return self.browser.run(SHOWN)

    def picture(self, name):
        if self.pictures:
            self.browser.picture(f"{self.pictures}/{name}.png")

    def files(self, name):
        """The example's files, on disk."""
        found = []
        for number, source in enumerate(self.browser.run("return DATA.examples[arguments[0]]", name)):
            found.append(f"{self.room}/{number} {source['name']}")
            with open(found[-1], "w", encoding="ascii") as file:
                file.write(source["text"])
        return found

    def debugged(self, files, lines, words=("--small", "8", "--medium", "2", "--large", "1")):
        """What `jvm debug` answers."""
        ran = subprocess.run([self.jvm, "debug", *words, "--steps", "1000000", "--output", "65536", *files], input="\n".join(lines) + "\n", capture_output=True, text=True, timeout=LIMIT)
        if ran.returncode:
            raise Tried(f"jvm debug ended with {ran.returncode}: {ran.stderr}")
        return ran.stdout

    def ran(self, files, *words):
        return subprocess.run([self.jvm, "run", *words, *files], capture_output=True, text=True, timeout=LIMIT)


# ---- what the page shows is what the native debugger answers


def commands_to(rows, row):
    """The debugger's commands for the first rows of a journal, of rounds with one turn of the collector in each."""
    whole, rest = divmod(row, 2)
    lines = [f"run {whole}"] if whole else []
    return [*lines, f"step {rows[row - 1].split()[0]}"] if rest else lines


def compared(page, files, shown, rows):
    """What differs between the page and the debugger after so many rows, or nothing."""
    row = shown["at"]
    moves = commands_to(rows, row)
    births = [int(it) for cell in shown["cells"] for it in re.findall(r"^cell \d+ \d+ #(\d+)", cell)]
    looks = [f"stack {thread['number']}" for thread in shown["threads"]]
    classes = [it.split(" ")[1] for it in shown["classes"]]
    answers = page.debugged(files, [*moves, *looks, "stack 255", "heap", *(f"class {it}" for it in classes), *(f"object {it}" for it in births), "quit"])
    lines = answers.split("\n")[len(moves):]
    stacks, heap = lines[:lines.index("error no such thread")], lines[lines.index("error no such thread") + 1:]
    wanted = []
    for thread in shown["threads"]:
        wanted += thread["lines"] if thread["lines"] else ["ended"]
    same(wanted, stacks, f"threads at row {row}")
    count = len(shown["cells"])
    same([re.match(r"cell \d+ \d+ (free|#\d+ \w+)", it)[0] for it in shown["cells"]], heap[:count], f"heap at row {row}")
    same(f"phase {shown['phase']}", heap[count], f"phase at row {row}")
    same(shown["classes"], heap[count + 1:count + 1 + len(classes)], f"classes at row {row}")
    objects = heap[count + 1 + len(classes):]
    for cell in (it for it in shown["cells"] if "#" in it):
        birth, kind = re.search(r"#(\d+) \w+(?: ([^,]+))?", cell).groups()
        line = objects.pop(0)
        if kind is None:
            same(line, "error no such object", f"#{birth} at row {row}")
        elif kind.startswith("["):
            same(line.split(" ")[:3], ["array", birth, kind], f"#{birth} at row {row}")
        else:
            same(line, f"object {birth} {kind}", f"#{birth} at row {row}")
            while objects and " = " in objects[0]:
                objects.pop(0)
    same(objects[0], f"output {len(shown['output'])}", f"output at row {row}")
    same("\n".join(objects[1:]), shown["output"], f"output at row {row}")


class Plain:
    """The plain machine in Python (tools/plain) beside a run, row by row, which has the free lists and the grey list as lists of cells."""

    def __init__(self, files):
        classes = []
        for file in files:
            with open(file, "rb") as it:
                classes.append(class_of(class_file_of(it.read())))
        self.world, self.made = World(classes, (8, 2, 1), 1000000, 65536), 0

    def lists(self, rows, row):
        """The lists after so many rows, no fewer than before."""
        for it in rows[self.made:row]:
            actor = it.split()[0]
            self.world.turn(actor if actor == "c" else int(actor))
        self.made = row
        heap = self.world.heap
        return {"grey": heap.grey, **{str(words): cells for words, cells in heap.free.items()}}


def moments_of(total, count):
    if total <= count:
        return list(range(total + 1))
    return sorted({round(nth * total / count) for nth in range(count + 1)})


def tried_example(page, name):
    """An example, at many moments, and as a whole."""
    files = page.files(name)
    page.example(name)
    shown = page.click("#run")
    rows = page.later("const all = []; (async () => { const total = rowsOf(page.moves); for (let n = 0; n * ROWS_A_PAGE < total; n++) all.push(...await pageOfRows(n)); done(all); })()")
    same(len(rows), shown["total"], "rows")
    ran = page.ran(files, "--small", "8", "--medium", "2", "--large", "1", "--steps", "1000000", "--output", "65536", "--journal", f"{page.room}/run.journal")
    same(shown["output"], ran.stdout, "output of the whole run")
    with open(f"{page.room}/run.journal", encoding="ascii") as file:
        same(rows, [line for line in file.read().split("\n")[4:] if line and not line.startswith("end")], "the journal")
    ends = {0: "finished", 1: "finished", 3: "faulted", 4: "running", 5: "stuck"}
    same(shown["state"]["status"], ends[ran.returncode], "how it ended")
    plain = Plain(files)
    for row in moments_of(shown["total"], page.moments):
        seen = page.go(row)
        same(seen["at"], row, "the row")
        same(seen["chosen"], row, "the chosen row")
        compared(page, files, seen, rows)
        if row <= ROWS_PLAIN:
            same(seen["lists"], plain.lists(rows, row), f"the lists at row {row}")


# ---- what can be done


def tried_steps(page):
    page.example("countdown")
    shown = page.click("#thread")
    same((shown["at"], shown["total"], shown["threads"][0]["lines"][0]), (1, 1, "frame 0 Countdown.main()V pc 1"))
    same(shown["marks"], [[9, 0]], "the mark at the line")
    same(page.click("#collect")["state"]["phase"], "statics")
    same(page.click("#round")["at"], 4)
    page.browser.run("$('many').value = 3")
    same(page.click("#rounds")["at"], 10)
    same(page.click("#back")["at"], 9)
    same(page.click("#start")["at"], 0)
    same(page.click("#forth")["at"], 1)
    same(page.click("#end")["at"], 10)
    shown = page.click("#run")
    same((shown["state"]["status"], shown["output"]), ("finished", "3\n2\n1\n"))
    same(page.click('#journal [data-row="5"]')["at"], 5, "a row of the journal")
    page.browser.run("$('row').value = 7")
    same(page.click("#go")["at"], 7)
    page.click("#thread")
    same(page.browser.run("return rowsOf(page.moves)"), 8, "what is done from an earlier row drops the later ones")


def tried_keys(page):
    page.example("countdown")
    same(page.key("s")["at"], 1)
    same(page.key("c")["at"], 2)
    same(page.key("r")["at"], 4)
    same(page.key("0")["at"], 5)
    same(page.key("\ue012")["at"], 4, "left arrow")
    same(page.key("\ue014")["at"], 5, "right arrow")
    same(page.key("\ue011")["at"], 0, "Home")
    same(page.key("\ue010")["at"], 5, "End")
    same(page.key("g")["state"]["status"], "finished")
    page.key("t")
    holds(page.browser.run("return Boolean(document.querySelector('#timeline svg'))"), "T draws no timeline")


def tried_breakpoint(page):
    page.example("countdown")
    files = page.files("countdown")
    page.click('#gutter [data-line="12"] button')
    same(page.browser.run("return document.querySelector('#gutter [data-line=\"12\"]').className.includes('break')"), True)
    shown = page.click("#to-break")
    wanted = page.debugged(files, ["break Countdown.main()V 3", "run 1000000", "stack 0", "quit"]).split("\n")
    same(wanted[1], "ran 3: at breakpoint 0 thread 0")
    same((shown["at"], shown["threads"][0]["lines"]), (6, wanted[2:5]))
    holds("at breakpoint 0 thread 0" in shown["status"], "the breakpoint isn't told")
    same(page.click("#to-break")["output"], "3\n")
    page.browser.run("$('gc').value = 2")
    page.click("#start")
    shown = page.click("#to-break")
    same((shown["at"], shown["threads"][0]["lines"]), (9, wanted[2:5]), "with two turns of the collector in each round")
    holds("at breakpoint 0 thread 0" in shown["status"], "the breakpoint isn't told, with two turns of the collector")
    same(page.click("#to-break")["output"], "3\n")
    page.browser.run("$('gc').value = 0")
    same([page.click("#to-break")["output"] for _ in range(2)], ["3\n2\n", "3\n2\n1\n"], "with none, and up to the end")
    page.browser.run("$('gc').value = 1")
    page.click('#gutter [data-line="12"] button')
    page.click("#to-break")
    holds("No breakpoint" in page.browser.run("return $('status').textContent"), "no breakpoint isn't told")


def tried_settings(page):
    page.example("workers")
    same(len(page.change(small=12, medium=0, large=0)["cells"]), 12)
    page.browser.run("$('gc').value = 3")
    same(page.click("#round")["at"], 4, "a round with three turns of the collector")
    page.change(steps=10)
    holds("step limit" in page.click("#run")["status"], "the limit isn't told")
    same(page.settled()["at"], 10)
    holds("P1" in page.change(small=1, steps=1000000)["refusal"], "P1 isn't told")
    page.browser.run("$('gc').value = 1")
    shown = page.change(small=8, medium=2, large=1)
    same((len(shown["cells"]), shown["refusal"]), (11, ""))


def tried_refusals(page):
    page.example("countdown")
    page.browser.run("$('text').value = $('text').value.replace('ifgt Again', 'ifgt Gone'); $('text').dispatchEvent(new Event('input'))")
    page.until("$('refusal').textContent.includes('J5 at line 15')")
    shown = page.settled()
    same(shown["refused"], 15, "the refused line")
    holds("A label is given twice" in shown["refusal"], "what the code means isn't told")
    page.picture("refusal")
    page.browser.run("$('text').value = $('text').value.replace('ifgt Gone', 'ifgt Again'); $('text').dispatchEvent(new Event('input'))")
    page.until("!page.busy && page.view && $('refusal').textContent === ''")
    for text, code in ((".class X\n.super Y\n", "L"), ("\u00e9\n", "J8"), ("", "J"), (".class public X\n.super java/lang/Object\n", "L")):
        page.take(text)
        holds(re.search(rf"\b{code}\d*", page.settled()["refusal"]), f"no {code} is told of {text!r}: {page.settled()['refusal']!r}")
    same(page.example("sum")["refusal"], "", "the page is usable after refusals")


def tried_markup(page):
    page.take(MARKUP)
    shown = page.click("#run")
    same(shown["output"], "<img src=x onerror=alert(1)><b>&amp;")
    same(page.browser.run("return document.querySelectorAll('#output *').length"), 0, "elements made of output")
    page.take("; </script><script>alert(1)</script>\n" + MARKUP, name="<b>x</b>.j")
    same(page.browser.run("return document.querySelectorAll('#tabs b').length"), 0, "elements made of a name")


def tried_link(page):
    page.example("Square")
    same(len(page.change(small=9)["cells"]), 12)
    page.click("#round")
    page.click("#thread")
    wanted = page.click("#collect")
    page.click("#back")
    page.browser.click("#link")
    page.until("location.hash.startsWith('#run=')")
    fragment = page.browser.run("return location.hash")
    page.open(fragment)
    shown = page.settled()
    same((shown["at"], shown["total"]), (wanted["at"] - 1, wanted["total"]))
    shown = page.click("#end")
    for part in ("threads", "cells", "statics", "journal", "phase"):
        same(shown[part], wanted[part], part)
    page.open("#run=AAAA")
    holds(page.settled()["state"], "after a damaged link there is no machine")


def dropped(page, *paths):
    files = []
    for path in paths:
        with open(path, "rb") as file:
            files.append([os.path.basename(path), base64.b64encode(file.read()).decode()])
    script = """
        const files = new DataTransfer();
        for (const [name, text] of arguments[0]) files.items.add(new File([Uint8Array.from(atob(text), (it) => it.charCodeAt(0))], name));
        document.dispatchEvent(new DragEvent("drop", { dataTransfer: files, bubbles: true, cancelable: true }));"""
    return page.loaded(lambda: page.browser.run(script, files))


def tried_files(page):
    classes = f"{ROOT}/examples/java"
    names = sorted(it for it in os.listdir(classes) if it.startswith("Edges") and it.endswith(".class"))
    shown = dropped(page, *(f"{classes}/{it}" for it in names))
    same(shown["refusal"], "")
    same(len(page.change(small=200, medium=100, large=40)["cells"]), 340)
    shown = page.click("#run")
    with open(f"{classes}/Edges.out", encoding="ascii") as file:
        same(shown["output"], file.read(), "output of class files")
    holds(page.browser.run("return $('listing').textContent").startswith(".class"), "a class file has no listing")
    page.example("D")
    shown = dropped(page, f"{ROOT}/examples/D.journal")
    with open(f"{ROOT}/examples/D.journal", encoding="ascii") as file:
        rows = [line for line in file.read().split("\n")[3:] if line and not line.startswith("end")]
    same((shown["at"], shown["state"]["status"]), (len(rows), "finished"), "a journal")
    page.example("countdown")
    shown = dropped(page, f"{ROOT}/examples/D.journal")
    holds("isn't one of this program" in shown["status"], "a journal of another program is taken")
    page.browser.keys(f"{ROOT}/examples/Square.j\n{ROOT}/examples/Shape.j", "#files")
    page.until("!page.busy && page.sources.length === 2 && page.view")
    same(page.settled()["refusal"], "")
    shown = dropped(page, f"{ROOT}/README.md")
    holds("Refused" in shown["refusal"], "a text that is none isn't refused")


def tried_heap(page):
    page.take(page.browser.run("return LESSONS[1].sources[0].text"), name="List.j", medium=0, large=0)
    page.browser.run("$('gc').value = 0; $('many').value = 10")
    page.click("#rounds")
    page.browser.run("$('gc').value = 1")
    page.click('#heap [data-cell="2"]')
    text = page.browser.run("return $('object').textContent")
    holds("#3" in text and "List" in text, f"the cell isn't shown: {text!r}")
    same(page.browser.run("return document.querySelectorAll('#heap .arrow').length"), 1, "arrows of a cell")
    page.browser.click("#arrows")
    holds(page.browser.run("return document.querySelectorAll('#heap .arrow').length") >= 1, "no arrows")
    page.picture("heap")
    page.browser.click("#arrows")
    # both objects were made by a thread alone, and no turn of the collector went by
    same(page.settled()["lists"], {"grey": [2, 3], "4": [4, 5, 6, 7]}, "the lists")
    page.browser.click('#lists [data-list="4"] [data-listed="6"]')
    same(page.browser.run("return [$('object').textContent, document.querySelector('#heap [aria-pressed=true]').dataset.cell]"), ["cell 6 of 4 words is free", "6"], "a cell chosen in a list")


def tried_timeline(page):
    page.example("workers")
    page.change(small=12, medium=0, large=0)
    total = page.click("#run")["total"]
    page.browser.click("#draw")
    page.until("document.querySelector('#timeline svg')")
    page.settled()
    holds(f"row {total}" in page.browser.run("return document.querySelector('#timeline svg').textContent"), "the timeline has no end")
    page.later("const svg = document.querySelector('#timeline svg'), box = svg.getBoundingClientRect(); svg.dispatchEvent(new MouseEvent('click', {clientX: box.left + box.width / 2, bubbles: true})); setTimeout(() => done(0), 200)")
    at = page.settled()["at"]
    holds(abs(at - total / 2) < total * 0.05, f"a click into the middle goes to row {at} of {total}")
    text = page.browser.run("return document.querySelector('#timeline svg').outerHTML")
    holds(text.startswith('<svg xmlns="http://www.w3.org/2000/svg"'), "it can't stand by itself as SVG")
    page.picture("timeline")


def tried_long_runs(page):
    page.take(COUNTER_LOOP)
    page.change(steps=16777215)
    page.browser.run("$('many').value = 500000")
    page.click("#rounds")
    same(page.settled()["total"], 1000000, "a run of a million rows")
    # (the best of three, since a machine may be busy)
    seek = "const began = performance.now(); go(arguments[0]).then(() => done(performance.now() - began))"
    took = [min(page.later(seek, row) for _ in range(3)) for row in (1, 999999, 500000, 750001, 250000)]
    print(f"page: seeks in a run of a million rows: {', '.join(f'{it:.0f} ms' for it in took)}", flush=True)
    holds(max(took) < page.seek, f"a seek took {max(took):.0f} ms")
    page.browser.run("window.waited = []; page.machine.ask(inputOf(setting(), Array(400).fill('rounds 40000 1')), (n) => waited.push(n)).catch((it) => waited.push(it.message))")
    page.until("waited.length > 0")  # how far it is
    page.browser.run("page.machine.stop()")
    page.until("waited.includes('stopped')")
    page.browser.run("go(0); document.getElementById('run').disabled = false; rounds(16000000)")
    page.browser.run("page.machine.stop()")
    same(page.go(0)["at"], 0, "the page is usable after a stop")
    page.change(steps=1000000)


# how a run stands that an exploration tells so
STANDS = {"finished": "finished", "stuck": "stuck", "output limit": "running"}
OUTCOMES = """return [...document.querySelectorAll('#outcomes li')].map((it) => ({
  words: it.querySelector('strong').textContent, ended: [...it.querySelectorAll('.lines')].map((line) => line.textContent),
  output: it.querySelector('pre')?.textContent ?? '', turns: Number(/after (\\d+) turns/.exec(it.textContent)[1]) }));"""


def told_by(outcomes):
    """The lines of a report on outcomes as the page shows them."""
    text = ""
    for number, it in enumerate(outcomes, 1):
        text += f"outcome {number}: {it['words']}\n" + "".join(f"{line}\n" for line in it["ended"])
        text += f"turns {it['turns']}\noutput {len(it['output'])}\n{it['output']}"
        text += "" if not it["output"] or it["output"].endswith("\n") else "\n"
    return text


def explored(page, files, *words):
    """What `jvm explore` prints."""
    return subprocess.run([page.jvm, "explore", *words, *files], capture_output=True, text=True, timeout=LIMIT, check=False).stdout


def opened_outcomes(page, outcomes):
    """Opens each outcome, which is a run to it."""
    for number, outcome in enumerate(outcomes, 1):
        shown = page.click(f'#outcomes [data-outcome="{number}"] button')
        words = outcome["words"]
        same((shown["at"], shown["total"]), (outcome["turns"], outcome["turns"]), f"the rows to outcome {number}")
        same(shown["state"]["status"], STANDS.get(words, "faulted"), f"how outcome {number} stands")
        same(shown["output"], outcome["output"], f"output of outcome {number}")
        ended = [f"thread {it['number']} {re.search('ended by .*', it['head'])[0]}" for it in shown["threads"] if "ended by" in it["head"]]
        same(ended, outcome["ended"], f"the threads of outcome {number} that an exception ended")
        holds(f"to outcome {number}, {words}" in shown["status"], f"it isn't told that outcome {number} was opened: {shown['status']}")
        same(page.browser.run(OUTCOMES), outcomes, "the outcomes, once one was opened")


def tried_exploring(page):
    """Every schedule of some programs, beside what `jvm explore` tells, and each outcome opened as a run."""
    for report in sorted(os.listdir(f"{ROOT}/examples/explore")):
        if not report.endswith(".txt"):
            continue
        name, _, option = report.removesuffix(".txt").partition("--")
        example = name if name == "D" else f"explore/{name}"
        page.example(example)
        page.browser.run("$('no-room').checked = arguments[0]", option == "no-room")
        page.click("#explore")
        words = ["--states", "100000", "--steps", "1000000", "--output", "65536", *([f"--{option}"] if option else [])]
        wanted = explored(page, page.files(example), *words)
        same(page.browser.run("return page.explored.report"), wanted, f"the report of {report}")
        outcomes = page.browser.run(OUTCOMES)
        same(told_by(outcomes) + page.browser.run("return $('explored').textContent")[:-1] + "\n", wanted, f"what is shown of {report}")
        opened_outcomes(page, outcomes)
    page.picture("explored")
    page.browser.run("$('no-room').checked = false; $('states').value = 20")
    page.example("explore/peterson")
    same(page.browser.run(OUTCOMES), [], "outcomes of another program")
    page.key("e")
    same(page.browser.run("return $('explored').textContent"), explored(page, page.files("explore/peterson"), "--states", "20").strip() + ".", "a search that is cut off")
    page.browser.run("$('states').value = 100000")
    page.browser.run("explore()")
    page.browser.run("page.machine.stop()")
    same(page.settled()["at"], 0, "the page is usable after an exploration was stopped")


def tried_lessons(page):
    page.browser.click("#show-lessons")
    wanted = [("What a turn is", "threads"), ("The three colours", "heap"), ("Why there is a write barrier", "heap"), ("A lost update", "statics"), ("A deadlock", "threads")]
    for number, (title, look) in enumerate(wanted, 1):
        shown = page.loaded(lambda number=number: page.browser.click(f"#lesson-titles button:nth-child({number})"))
        same(shown["refusal"], "", title)
        same(page.browser.run("return $('lesson-title').textContent"), title)
        same(page.browser.run("return document.querySelector('.look').id"), look)
        page.picture(f"lesson {number}")
        if title == "Why there is a write barrier":
            same(re.findall("#3 (\\w+)", " ".join(shown["cells"])), ["white"], "before the write")
            page.click("#thread")
            same(re.findall("#3 (\\w+)", " ".join(page.click("#thread")["cells"])), ["grey"], "after the load")
            for _ in range(3):
                shown = page.click("#thread")
            same(shown["statics"], ["Moved.early = #3"], "after the write")
            for _ in range(40):
                shown = page.click("#collect")
                holds("#3" in " ".join(shown["cells"]), "#3 is lost")
        if title == "A lost update":
            same(shown["statics"], ["Counter.count = 1"], title)
        if title == "A deadlock":
            same(shown["state"]["status"], "stuck", title)
            page.click("#start")
            for _ in range(15):
                shown = page.key("0")
            same(page.click("#run")["state"]["status"], "finished", "the other way")
    page.example("countdown")
    same(page.browser.run("return document.querySelectorAll('.look').length"), 0, "what a lesson points at, once another program is there")
    page.browser.click("#show-lessons")


LOOKS = ["state", "threads", "held", "statics", "heap", "lists", "output"]
SESSIONS = (
    ["methods", "listing 0", "listing 9", *LOOKS, "rounds 5 1", *LOOKS, "step 0", "gc", "step 200", *LOOKS, "object 1", "object 3", "rounds 100000 2", *LOOKS, "rows 0 50", "rows 40 3", "journal"],
    ["rounds 7 0", "state", "gc", "state", "rounds 100000 1", "state", "threads", "journal", "bad", "rounds 1", "rows 1", "listing", ""],
    ["explore 1000", "explore no-room 1000", "state", "explore 0", "explore", "explore x", "explore no-room"],
    ["break Countdown.main()V 3", "run 1000", *LOOKS, "run 1000", "delete 0", "run 1000000", *LOOKS, "quit", "state"],
)


def tried_sessions(page):
    """The native program and the page's machine give the same bytes."""
    if not os.access(page.playground, os.X_OK):
        raise Skipped(f"no {page.playground}")
    names = page.browser.run("return Object.keys(DATA.examples)")
    count = 0
    for name in names:
        files = page.browser.run("return DATA.examples[arguments[0]]", name)
        head = "heap 8 2 1\nlimits 100000 1000\n" + f"sources {len(files)}\n" + "".join(f"source {len(it['text'])}\n{it['text']}" for it in files)
        for lines in SESSIONS:
            given = head + "\n".join(lines)
            ran = subprocess.run([page.playground], input=given.encode(), capture_output=True, timeout=LIMIT, check=False)
            seen = page.later("page.machine.ask(encoder.encode(arguments[0])).then((it) => done([it.status, String.fromCharCode(...it.output)]))", given)
            same(seen, [ran.returncode, ran.stdout.decode("latin-1")], f"{name}: {lines[0]} ..")
            count += 1
    for given in ("", "heap 8 2 1\n", "heap 8 2 1\nlimits 5 5\nsources 1\nsource 9\nabc", "heap 1 0 0\nlimits 5 5\nsources 0\n"):
        ran = subprocess.run([page.playground], input=given.encode(), capture_output=True, timeout=LIMIT, check=False)
        seen = page.later("page.machine.ask(encoder.encode(arguments[0])).then((it) => done([it.status, String.fromCharCode(...it.output)]))", given)
        same(seen, [ran.returncode, ran.stdout.decode("latin-1")], repr(given))
        count += 1
    print(f"page: {count} sessions gave the same bytes as the native program", flush=True)


def tried_reading(page):
    """What a screen reader needs, and other ways to look."""
    unnamed = page.browser.run("""
        const named = (it) => it.getAttribute("aria-label") || it.labels?.length || it.textContent.trim() || it.getAttribute("title");
        return [...document.querySelectorAll("button, input:not([hidden]), select, textarea, [role]")].filter((it) => !named(it) && it.getAttribute("role") !== "alert" && it.getAttribute("role") !== "status").map((it) => it.outerHTML.slice(0, 100));""")
    same(unnamed, [], "elements without a name")
    page.example("workers")
    page.browser.run("$('many').value = 60")
    page.click("#rounds")
    page.picture("light")
    low = page.browser.run(CONTRAST)
    same(low, [], "too little contrast, light")
    page.browser.media({"prefers-color-scheme": "dark"})
    page.picture("dark")
    same(page.browser.run(CONTRAST), [], "too little contrast, dark")
    page.browser.media({"prefers-color-scheme": "light"})
    page.browser.command("Emulation.setDeviceMetricsOverride", {"width": 700, "height": 900, "deviceScaleFactor": 2, "mobile": False})
    holds(page.browser.run("return document.documentElement.scrollWidth <= 700"), "at 200 % it must be scrolled sideways")
    page.picture("at 200 percent")
    page.browser.command("Emulation.clearDeviceMetricsOverride", {})


# words whose colour stands out too little from what is behind it (WCAG 2, 4.5 to 1)
CONTRAST = """
const rgb = (text) => text.match(/[\\d.]+/g).map(Number);
const light = ([r, g, b]) => { const [x, y, z] = [r, g, b].map((it) => (it /= 255) <= 0.03928 ? it / 12.92 : ((it + 0.055) / 1.055) ** 2.4); return 0.2126 * x + 0.7152 * y + 0.0722 * z; };
const behind = (it) => { for (; it; it = it.parentElement) { const c = rgb(getComputedStyle(it).backgroundColor); if (c.length === 3 || c[3] > 0.5) return c; } return [255, 255, 255]; };
const found = [];
for (const it of document.querySelectorAll("body *")) {
  if (![...it.childNodes].some((node) => node.nodeType === 3 && node.textContent.trim()) || it.closest("svg, script, [hidden], :disabled, option") || !it.getClientRects().length) continue;
  const a = light(rgb(getComputedStyle(it).color)), b = light(behind(it));
  const ratio = (Math.max(a, b) + 0.05) / (Math.min(a, b) + 0.05);
  if (ratio < 4.5) found.push(`${it.tagName} ${it.className} ${it.textContent.slice(0, 20)} ${ratio.toFixed(2)}`);
}
return found.slice(0, 5);
"""


def tests(page):
    """Each test with its name."""
    names = page.browser.run("return Object.keys(DATA.examples)")
    yield from ((f"example {name}", lambda name=name: tried_example(page, name)) for name in names if name != "missing_operand" and "/" not in name)
    yield "a fault", lambda: tried_example(page, "missing_operand")
    for name, test in list(globals().items()):
        if name.startswith("tried_") and name != "tried_example":
            yield name[6:].replace("_", " "), lambda test=test: test(page)


def messages(browser):
    """What stands in the browser's console, but for what was to be there."""
    return [it["message"] for it in browser.messages()]


def outcome(page, test):
    """Why a test failed or was skipped, or nothing."""
    try:
        test()
        return "; ".join(messages(page.browser)) or None
    except Skipped as skipped:
        return skipped
    except Tried as tried_otherwise:
        why = str(tried_otherwise)
    except Exception as error:  # a test that can't go on has failed, and the others are made
        why = f"{type(error).__name__}: {error}"
    page.open()
    messages(page.browser)  # (these belong to the test that failed)
    return why


def page_of(given, room):
    """The page's path; where none is given, it is built."""
    if given.page:
        return os.path.abspath(given.page)
    words = ["--from-gate", "--level=-O1"] if given.gate else []
    if given.module and os.path.exists(given.module):
        words += ["--module", given.module]
    how = {"stdout": subprocess.PIPE, "text": True, "env": {**os.environ, "TMPDIR": room}}
    made = subprocess.run([sys.executable, f"{ROOT}/tools/page.py", f"{room}/page.html", *words], check=False, **how)
    if made.returncode:
        raise NoPage("no page could be built")
    print(f"page: {made.stdout.splitlines()[0].rsplit('/', 1)[-1]}", flush=True)
    return f"{room}/page.html"


def tried(given, room):
    """Each test that is wanted, and why it failed or was skipped, or nothing."""
    if given.gate and not installed():
        raise NoBrowser
    if not os.access(given.jvm, os.X_OK):
        raise NoPage(f"there is no {given.jvm}")
    path = page_of(given, room)
    with contextlib.closing(Browser()) as browser:
        print(f"page: in Chromium {browser.version}", flush=True)
        page = Page(browser, path, given, room)
        for name, test in tests(page):
            if not given.words or any(word in name for word in given.words):
                yield name, outcome(page, test)


def options():
    """What the command line says."""
    words = argparse.ArgumentParser(description=__doc__.split("\n")[0])
    words.add_argument("--page")
    words.add_argument("--jvm", default=f"{ROOT}/crates/jvm/out/jvm", type=os.path.abspath)
    words.add_argument("--playground", default=f"{ROOT}/crates/playground/out/playground", type=os.path.abspath)
    words.add_argument("--moments", type=int)
    words.add_argument("--gate", action="store_true")
    words.add_argument("--module", type=os.path.abspath)
    words.add_argument("--pictures")
    words.add_argument("words", nargs="*")
    given = words.parse_args()
    given.moments = given.moments or (10 if given.gate else 40)
    return given


def main():
    """Tries all, and tells what failed."""
    given, passed, failed, skipped = options(), 0, 0, 0
    signal.signal(signal.SIGTERM, lambda number, _: sys.exit(128 + number))
    if given.pictures:
        os.makedirs(given.pictures, exist_ok=True)
    with tempfile.TemporaryDirectory() as room:
        try:
            for name, why in tried(given, room):
                skips = isinstance(why, Skipped)
                passed, failed, skipped = passed + (not why), failed + (bool(why) and not skips), skipped + skips
                if why:
                    print(f"page: {name}: {'skipped: ' if skips else ''}{why}", flush=True)
        except NoBrowser as why:
            skipped += 1
            print(f"page: not tested, no browser{': ' if why.args else ''}{why}")
        except NoPage as why:
            failed += 1
            print(f"page: not tested, {why}")
        except Exception as error:  # the page doesn't open, or the browser is gone
            failed += 1
            print(f"page: no more was tested: {type(error).__name__}: {error}")
    print(f"{passed} passed, {failed} failed" + (f", {skipped} skipped" if skipped else ""))
    return 1 if failed else 0


if __name__ == "__main__":
    sys.exit(main())
