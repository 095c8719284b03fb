"""Writes the report of a run."""
import json
import os
import platform
import re
import subprocess

from inputs import MESSAGES, titles
from repository import TOP
from threads import THREADS

SIDES = {"enc": "encode_buf", "new": "encode", "dec": "decode"}
OTHERS = {"table": "the table", "asn1c": "asn1c", "osmocom": "Osmocom", "erlang": "Erlang", "c": "C"}
MOST = 3
# The instructions that an encoding and a decoding of a kind are to take at most.
GOALS = {
    "four": (620, 450),
    "integer": (400, 180),
    "optional": (750, 800),
    "list": (30000, 35000),
    "group": (850, 900),
    "choice": (550, 600),
    "cam": (5000, 7000),
    "visible1k": (8000, 9000),
}
# How many times a page's instructions an encoding and a decoding by a table are to take at most.
TIMES_BY_TABLE = (1.3, 1.8)


def first_line(*words):
    done = subprocess.run(words, capture_output=True, text=True, cwd=TOP)
    lines = (done.stdout + done.stderr).strip().splitlines()
    return lines[0] if lines else "unknown"


def package(name):
    return first_line("dpkg-query", "-W", "-f", "${Version}", name)


def machine():
    with open("/proc/cpuinfo", encoding="utf-8") as it:
        model = re.search(r"^model name\s*: (.*)$", it.read(), re.MULTILINE)
    return f"{model[1] if model else platform.machine()}, {os.cpu_count()} processors"


def versions():
    commit = first_line("git", "log", "-1", "--format=%h of %cs")
    others = ", ".join(f"{it} {package(it)}" for it in ("asn1c", "osmo-libasn1c-dev", "erlang-asn1"))
    others += f", {first_line('gcc', '--version')} at -O2"
    return f"Commit {commit}; {first_line('rt', 'version')}; {others}. {machine()}; load at the end {os.getloadavg()[0]:.1f}."


def table(head, rows):
    lines = [head, ["---"] * len(head), *rows]
    return "".join(f"| {' | '.join(line)} |\n" for line in lines)


def time_table(times, variant):
    """A line for each kind, a column for each operation and each other program: this project's time over the other's."""
    columns = []
    for operation in SIDES:
        found = times.get(f"{variant} {operation} four", {})
        columns += [(operation, name) for name in found]
    head = [variant.upper()] + [f"{SIDES[it]} ns" if name == "rasn" else f"/ {OTHERS[name]}" for it, name in columns]
    rows = []
    for kind, title in titles().items():
        row = [title]
        for operation, name in columns:
            nanoseconds, ratio = times.get(f"{variant} {operation} {kind}", {}).get(name, (None, None))
            row.append("" if ratio is None else f"{nanoseconds:,.0f}" if name == "rasn" else f"{ratio:.2f}")
        rows += [row] if any(row[1:]) else []
    return table(head, rows)


def goals(times, grown):
    """Returns the goals with what was measured and whether that reaches them."""
    found = []

    def goal(text, measured, most):
        found.append([text, f"{measured:.2f}", "reached" if measured < most else f"missed: {measured / most:.2f} times as much"])

    for operation, side in SIDES.items():
        for kind, name, text, most in (
            ("four", "asn1c", "`four` below 0.6 of asn1c", 0.6),
            ("octets1m", "c", "OCTET STRING of 1 MiB below 1.5 of memcpy", 1.5),
            ("behind1m", "asn1c", "the same behind a bit below 0.2 of asn1c", 0.2),
            ("visible1k", "asn1c", "VisibleString of 1 KiB below 0.3 of asn1c", 0.3),
        ):
            goal(f"{side}: {text}", times[f"uper {operation} {kind}"][name][1], most)
    if grown:
        size, _, memory = grown[-1]
        goal("`per_check uper octets` at 16 MiB, with the program itself: 4 resident octets an octet of value", memory / size, 4)
    return found


def behind(times):
    """Returns the rows on which this project isn't ahead of asn1c, Osmocom or Erlang."""
    found = []
    for key, row in times.items():
        variant, operation, kind = key.split()
        for name in ("asn1c", "osmocom", "erlang"):
            if name in row and row[name][1] >= 1:
                found.append(f"{variant.upper()} {SIDES[operation]} of {titles()[kind]}: {row[name][1]:.2f} of {OTHERS[name]}'s time")
    return found


def plain(function):
    """A function's name without the marks of its instance."""
    return re.sub(r"::<#\w+>", "", function).split("'")[0]


def instruction_rows(counted):
    rows, most = [], []
    for kind, title in titles().items():
        if f"rasn uper new {kind}" not in counted:
            continue
        row = [title]
        for operation, goal in zip(("new", "dec"), GOALS.get(kind, ("", ""))):
            found = [counted.get(f"{name} uper {operation} {kind}") for name in ("rasn", "asn1c", "c")]
            sums = [f"{sum(it.values()):,.0f}" if it else "" for it in found]
            own = counted[f"rasn uper {operation} {kind}"]
            total = sum(own.values()) or 1
            verdict = "" if goal == "" else "reached" if total <= goal else f"{total / goal:.1f}"
            row += [sums[0], f"{goal:,}" if goal else "", verdict, *sums[1:]]
            first = sorted(own, key=own.get, reverse=True)[:MOST]
            most.append([f"{SIDES[operation]}: {title}", ", ".join(f"`{plain(it)}` {100 * own[it] / total:.0f}%" for it in first)])
        rows.append(row)
    return rows, most


def rows_by_table(counted):
    """A line for each kind: what a page and a table take, how many times as much the table, and over asn1c's."""
    rows = []
    for kind, title in titles().items():
        row = [title]
        for operation, goal in zip(("new", "dec"), TIMES_BY_TABLE):
            found = [counted.get(f"{it} uper {operation} {kind}", {}) for it in ("rasn", "table", "asn1c")]
            page, by_table, other = (sum(it.values()) for it in found)
            if page and by_table:
                reached = by_table <= goal * page
                row += [f"{page:,.0f}", f"{by_table:,.0f}", f"{by_table / page:.2f}", "reached" if reached else f"missed: {goal}"]
                row += [f"{by_table / other:.2f}" if other else ""]
        rows += [row] if row[1:] else []
    return rows


def rows_in_aper(counted):
    """A line for each kind: what a page, a table, Osmocom's library and C take in APER."""
    rows = []
    for kind, title in titles().items():
        row = [title]
        for operation in ("new", "dec"):
            found = [counted.get(f"{it} aper {operation} {kind}", {}) for it in ("rasn", "table", "osmocom", "c")]
            page, *others = (sum(it.values()) for it in found)
            row += [f"{it:,.0f}" if it else "" for it in (page, *others)] if page else []
        rows += [row] if row[1:] else []
    return rows


def messages_a_second(times):
    """A line for each message: how many a second each program encodes into the same buffer, and decodes. Erlang's is new."""
    rows = []
    for kind, (title, variant, _) in MESSAGES.items():
        row = [f"{title}, {variant.upper()}"]
        for operation in ("enc", "dec"):
            found = times.get(f"{variant} {operation} {kind}", {})
            found = {"erlang": times.get(f"{variant} new {kind}", {}).get("erlang"), **found}
            for names in (("rasn",), ("table",), ("asn1c", "osmocom"), ("erlang",)):
                cell = next((found[it] for it in names if found.get(it)), None)
                row.append(f"{1e9 / cell[0]:,.0f}" if cell else "")
        rows.append(row)
    return rows


def rows_of_threads(threads):
    """A line for each message: how many a second, and how many times those of one thread."""
    return [[title, *(f"{it:,.0f} ({it / found[0]:.2f})" for it in found)] for title, found in threads.items()]


def growth_rows(grown):
    """A line for each length; the last column leaves out what the program takes for the shortest."""
    least, _, own = grown[0]
    rows = []
    for size, seconds, memory in grown:
        more = f"{(memory - own) / (size - least):.2f}" if size > least else ""
        rows.append([f"{size:,}", f"{seconds:.2f}", f"{memory / 1024:,.0f}", more])
    return rows


def text_of_times(times, grown):
    text = "".join(f"\n{time_table(times, variant)}" for variant in ("uper", "aper"))
    head = ["Messages a second"]
    for side in ("encode_buf", "decode"):
        head += [side, "by table", "asn1c or Osmocom", "Erlang"]
    text += f"\n{table(head, messages_a_second(times))}\n{table(['Goal', 'Measured', ''], goals(times, grown))}"
    late = behind(times)
    return text + "\nNot ahead of asn1c, Osmocom or Erlang:" + ("\n\n" + "".join(f"- {it}\n" for it in late) if late else " nowhere.\n")


def text_of_instructions(counted):
    rows, most = instruction_rows(counted)
    head, by_table, aper = ["Instructions, UPER"], ["Instructions by table, UPER"], ["Instructions, APER"]
    for side in ("encode", "decode"):
        head += [side, "goal", "times the goal", "asn1c", "C"]
        by_table += [f"{side} by page", "by table", "times the page's", "goal", "/ asn1c"]
        aper += [f"{side} by page", "by table", "Osmocom", "C"]
    text = f"\n{table(head, rows)}\n{table(['Most instructions', 'of this project, by function'], most)}"
    return f"{text}\n{table(by_table, rows_by_table(counted))}\n{table(aper, rows_in_aper(counted))}"


def report(folder):
    """Returns the text of the stages that have run."""
    def kept(name):
        path = f"{folder.path}/{name}.json"
        if not os.path.isfile(path):
            return None
        with open(path, encoding="utf-8") as it:
            return json.load(it)

    times, threads, counted, grown, sizes = map(kept, ("times", "threads", "instructions", "growth", "sizes"))
    text = versions() + "\n"
    if times:
        text += text_of_times(times, grown)
    if threads:
        head = ["Messages a second, read and written by table, by the clock", *(f"{it} at once" for it in THREADS)]
        text += "\n" + table(head, rows_of_threads(threads))
    if counted:
        text += text_of_instructions(counted)
    if grown:
        text += "\n" + table(["Octets of value", "seconds", "KiB resident", "more octets for each octet more"], growth_rows(grown))
    if sizes:
        text += "\n" + table(["Octets of", ""], [[name, f"{octets:,}"] for name, octets in sizes.items()])
    with open(f"{folder.path}/differences.txt", encoding="utf-8") as it:
        told = it.read()
    folder.written("report.md", text + (f"\n{told}" if told else ""))
    return text
