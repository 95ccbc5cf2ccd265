#!/usr/bin/env python3
"""Measures the program against a plain C program on the same edge text.

For each size of text, each of the five programs of the graph engine and each number of engines it runs both, checks that
their answers are the same bytes, and takes the least wall time and the peak memory of several runs. It prints a table of
ratios to standard output, in Markdown, below a line on the machine, and plots it to ratios.svg beside this file.

The texts are those of the command `bench` (docs/FORMATS.md), made by rmat.c; the plain program is plain.c. All that is
made but the plot stands in a temporary folder, which is removed. The program is built first, as ./chaos does it, where no
other is named.
"""
import argparse
import filecmp
import os
import platform
import shutil
import subprocess
import sys
import tempfile
import time
from dataclasses import dataclass
from pathlib import Path

HERE = Path(__file__).resolve().parent
TOP = HERE.parent
COMPILE = ["cc", "-std=c11", "-O2", "-Wall", "-Wextra", "-Wpedantic"]
JOBS = {
    "bfs": ["bfs", "0"],
    "labels": ["labels"],
    "sssp": ["sssp", "0"],
    "degrees": ["degrees"],
    "pagerank": ["pagerank", "10"],
}
HEADING = "## Figures\n"
COLOURS = {"bfs": "#1b6ca8", "labels": "#c0392b", "sssp": "#2e8b57", "degrees": "#8e44ad", "pagerank": "#d68910"}


@dataclass
class Cost:
    """What a run took: wall seconds, and the peak of its memory in KiB, in which files do not count. The system never
    tells less than the memory of this script, about 16 MiB."""

    seconds: float
    memory: int

    def least(self, other):
        return Cost(min(self.seconds, other.seconds), min(self.memory, other.memory))


@dataclass
class Row:
    """What a job took on a text: the plain program, and the engine by its number of engines."""

    edges: int
    job: str
    plain: Cost
    engine: dict


def words_of_call():
    parser = argparse.ArgumentParser(description=__doc__, formatter_class=argparse.RawDescriptionHelpFormatter)
    parser.add_argument("--program", type=Path, help="the program to measure, in place of the one that ./chaos builds")
    parser.add_argument("--scale", type=int, default=18, help="the vertices are 2^SCALE (18)")
    parser.add_argument("--edges", default="1048576,4194304,16777216", help="numbers of edges, with commas between")
    parser.add_argument("--engines", default="1,2,3,4", help="numbers of engines, with commas between")
    parser.add_argument("--jobs", default=",".join(JOBS), help="the programs of the graph engine to run")
    parser.add_argument("--repeat", type=int, default=3, help="runs of each, of which the least counts (3)")
    parser.add_argument("--plot", type=Path, default=HERE / "ratios.svg", help="where the plot is written")
    parser.add_argument("--document", type=Path, help="a document whose last part, Figures, is written anew")
    parser.add_argument("--folder", type=Path, help="where the temporary folder is made")
    return parser.parse_args()


def numbers(text):
    return [int(number) for number in text.split(",")]


def built_program():
    """Has ./chaos build the program, which it does before it reads its words, of which there are none here."""
    subprocess.run([TOP / "chaos"], stdin=subprocess.DEVNULL, stdout=subprocess.DEVNULL, check=False)
    return TOP / "crates/chaos_cli/out/chaos_cli"


def compiled(name, folder):
    program = folder / name
    subprocess.run([*COMPILE, "-o", program, HERE / f"{name}.c"], check=True)
    return program


def run(words, source, answer, folder):
    """Runs a command in a folder from one file to another, and tells what it cost."""
    with open(source, "rb") as text, open(answer, "wb") as out:
        start = time.monotonic()
        child = subprocess.Popen(words, stdin=text, stdout=out, cwd=folder)
        _, status, usage = os.wait4(child.pid, 0)
        seconds = time.monotonic() - start
    child.returncode = os.waitstatus_to_exitcode(status)
    if child.returncode != 0:
        sys.exit(f"{' '.join(map(str, words))}: status {child.returncode}")
    return Cost(seconds, usage.ru_maxrss)


def run_plain(plain, vertices, job, text, folder):
    return run([plain, str(vertices), *JOBS[job]], text, folder / "plain.answer", folder)


def run_engine(program, vertices, job, engines, text, folder):
    """Runs the program in a new folder, in which it makes its store, and compares its answer with the plain one."""
    room = Path(tempfile.mkdtemp(dir=folder))
    words = [program, "run", *JOBS[job], "--vertices", str(vertices), "--engines", str(engines)]
    cost = run(words, text, folder / "engine.answer", room)
    shutil.rmtree(room)
    if not filecmp.cmp(folder / "plain.answer", folder / "engine.answer", shallow=False):
        sys.exit(f"{job} on {engines} engines: the answers differ")
    return cost


def measured(call, program, plain, job, edges, text, folder):
    """Runs the plain program and each number of engines in turn, so that all meet the machine as it is."""
    row = Row(edges, job, Cost(float("inf"), sys.maxsize), {})
    vertices = 2**call.scale
    for _ in range(call.repeat):
        row.plain = row.plain.least(run_plain(plain, vertices, job, text, folder))
        for engines in numbers(call.engines):
            cost = run_engine(program, vertices, job, engines, text, folder)
            row.engine[engines] = row.engine.get(engines, cost).least(cost)
    return row


def all_rows(call, folder):
    program = (call.program or built_program()).resolve()
    plain, rmat = compiled("plain", folder), compiled("rmat", folder)
    for edges in numbers(call.edges):
        text = folder / "text"
        with open(text, "wb") as out:
            subprocess.run([rmat, str(call.scale), str(edges), "1"], stdout=out, check=True)
        for job in call.jobs.split(","):
            print(f"{job} over {edges} edges", file=sys.stderr)
            yield measured(call, program, plain, job, edges, text, folder)


def time_ratio(row, engines):
    return row.engine[engines].seconds / row.plain.seconds


def memory_ratio(row, engines):
    return row.engine[engines].memory / row.plain.memory


def table(rows, engines):
    """The rows in Markdown: seconds and MiB of the plain program, and how many times those the engine takes."""
    heads = ["edges", "program", "plain seconds", *(f"time on {n}" for n in engines)]
    heads += ["plain MiB", *(f"memory on {n}" for n in engines)]
    lines = ["| " + " | ".join(heads) + " |", "|" + " --- |" * len(heads)]
    for row in rows:
        cells = [f"{row.edges:,}", row.job, f"{row.plain.seconds:.2f}"]
        cells += [f"{time_ratio(row, n):.2f}" for n in engines]
        cells += [f"{row.plain.memory / 1024:.0f}"]
        cells += [f"{memory_ratio(row, n):.2f}" for n in engines]
        lines.append("| " + " | ".join(cells) + " |")
    return "\n".join(lines)


def said_by(*words):
    """The first line that a command prints, or a question mark."""
    ran = subprocess.run(words, capture_output=True, text=True, check=False)
    return (ran.stdout.splitlines() or ["?"])[0].strip()


def machine(folder):
    """A line on the processors, the kernel, the files and the compiler."""
    models = [line for line in Path("/proc/cpuinfo").read_text().splitlines() if line.startswith("model name")]
    model = models[0].partition(":")[2].strip() if models else platform.machine()
    files = said_by("findmnt", "--noheadings", "--output", "FSTYPE", "--target", str(folder))
    return f"{os.cpu_count()} processors ({model}), {platform.system()} {platform.release()}, files on {files}, {said_by('cc', '--version')}."


def write_figures(document, figures):
    """Puts the figures in the place of all that stands behind their heading."""
    front, found, _ = document.read_text().partition(HEADING)
    if not found:
        sys.exit(f"{document} has no part {HEADING.strip()}")
    document.write_text(f"{front}{HEADING}\n{figures}")


class Panel:
    """A chart of one kind of ratio at one size of text: a line for each job over the numbers of engines."""

    WIDTH, HEIGHT, LEFT, TOP = 300, 220, 46, 40

    def __init__(self, column, line, title, rows, engines, ratio, most):
        self.x0 = column * self.WIDTH + self.LEFT
        self.y0 = line * self.HEIGHT + self.TOP
        self.wide, self.high = self.WIDTH - self.LEFT - 20, self.HEIGHT - self.TOP - 36
        self.title, self.rows, self.engines, self.ratio, self.most = title, rows, engines, ratio, most

    def x(self, engines):
        steps = max(len(self.engines) - 1, 1)
        return self.x0 + self.wide * self.engines.index(engines) / steps

    def y(self, ratio):
        return self.y0 + self.high * (1 - ratio / self.most)

    def text(self, x, y, words, anchor="middle"):
        return f'<text x="{x:.1f}" y="{y:.1f}" text-anchor="{anchor}">{words}</text>'

    def frame(self):
        yield self.text(self.x0 + self.wide / 2, self.y0 - 12, self.title)
        for step in range(5):
            ratio = self.most * step / 4
            y = self.y(ratio)
            yield f'<line x1="{self.x0}" y1="{y:.1f}" x2="{self.x0 + self.wide}" y2="{y:.1f}" stroke="#ddd"/>'
            yield self.text(self.x0 - 6, y + 4, f"{ratio:.1f}", "end")
        for engines in self.engines:
            yield self.text(self.x(engines), self.y0 + self.high + 16, str(engines))

    def lines(self):
        for row in self.rows:
            points = [(self.x(n), self.y(self.ratio(row, n))) for n in self.engines]
            path = " ".join(f"{x:.1f},{y:.1f}" for x, y in points)
            yield f'<polyline points="{path}" fill="none" stroke="{COLOURS[row.job]}" stroke-width="2"/>'
            for x, y in points:
                yield f'<circle cx="{x:.1f}" cy="{y:.1f}" r="3" fill="{COLOURS[row.job]}"/>'


def panels(rows, engines):
    sizes = sorted({row.edges for row in rows})
    for line, (name, ratio) in enumerate((("wall time", time_ratio), ("peak memory", memory_ratio))):
        most = max(ratio(row, n) for row in rows for n in engines) * 1.1
        for column, size in enumerate(sizes):
            chosen = [row for row in rows if row.edges == size]
            yield Panel(column, line, f"{name}, {size:,} edges", chosen, engines, ratio, most)


def legend(jobs, y):
    for place, job in enumerate(jobs):
        x = 46 + 110 * place
        yield f'<line x1="{x}" y1="{y}" x2="{x + 24}" y2="{y}" stroke="{COLOURS[job]}" stroke-width="3"/>'
        yield f'<text x="{x + 30}" y="{y + 4}">{job}</text>'


def plot(rows, engines):
    """The ratios as a picture: above those of time and below those of memory, a column for each size of text."""
    charts = list(panels(rows, engines))
    width = Panel.WIDTH * (len(charts) // 2)
    height = 2 * Panel.HEIGHT + 50
    parts = [f'<svg xmlns="http://www.w3.org/2000/svg" width="{max(width, 600)}" height="{height}" font-family="sans-serif" font-size="12">']
    parts.append('<rect width="100%" height="100%" fill="white"/>')
    for chart in charts:
        parts += [*chart.frame(), *chart.lines()]
    parts += legend(dict.fromkeys(row.job for row in rows), height - 38)
    parts.append(f'<text x="46" y="{height - 10}">engine over plain C program, by the number of engines</text>')
    return "\n".join([*parts, "</svg>"]) + "\n"


def main():
    call = words_of_call()
    engines = numbers(call.engines)
    with tempfile.TemporaryDirectory(dir=call.folder) as folder:
        rows = list(all_rows(call, Path(folder)))
        figures = f"{machine(folder)}\n\n{table(rows, engines)}\n"
    print(figures, end="")
    call.plot.write_text(plot(rows, engines))
    if call.document:
        write_figures(call.document, figures)


if __name__ == "__main__":
    main()
