"""What bench/run makes of its times: the tables as Markdown, the plots, and what they lack. Other scripts here tell theirs in the
same way."""
import os
import platform
import re
import shutil
import statistics
import subprocess
import time
from pathlib import Path
from xml.etree import ElementTree

import plots

TOP = Path(__file__).resolve().parent.parent
# The bars of one plot, from above, and the lines of the other.
BARS = ("cat", "cp", "verify", "show", "show --recover", "ranges --parts=4", "show > file", "write", "append", "repair",
        "join", "collect", "sample", "wc -l", "xxhsum", "sha256sum", "zstd -1")
CURVES = ("write", "repair", "show", "verify", "cp", "cat")


def amount(size):
    """A number of bytes, as `1 GB`."""
    for power, unit in ((9, "GB"), (6, "MB"), (3, "kB")):
        if size >= 10**power:
            return f"{size / 10**power:.4g} {unit}"
    return f"{size} bytes" if size > 1 else "1 byte"


def milliseconds(seconds):
    return f"{seconds * 1000:,.{0 if seconds >= 0.1 else 1}f}"


def mebibytes(size):
    return f"{size / 2**20:.1f}"


def rate(job):
    return job.size / job.best / 1e9


def first_line(*command):
    """What a command prints first, or nothing where it is missing or fails."""
    if not shutil.which(command[0]):
        return ""
    done = subprocess.run(command, stdout=subprocess.PIPE, stderr=subprocess.STDOUT, universal_newlines=True, check=False)
    return done.stdout.strip("* \n").split("\n")[0].strip() if done.returncode == 0 else ""


def processor():
    found = re.search(r"^model name\s*: (.*)$", Path("/proc/cpuinfo").read_text(), re.M)
    return found[1] if found else platform.machine()


def file_system(place):
    """The type of the file system that a folder lies on."""
    place = os.path.realpath(place)
    mounts = [line.split() for line in Path("/proc/self/mounts").read_text().splitlines()]
    return max((len(top), kind) for _, top, kind, *_ in mounts if os.path.commonpath([place, top]) == top)[1]


def memory(name):
    """How much memory the system has by this name, in bytes."""
    return int(re.search(rf"^{name}: *(\d+) kB$", Path("/proc/meminfo").read_text(), re.M)[1]) * 1024


def machine(tools, place):
    """What the figures are of, by name."""
    return {
        "Date": time.strftime("%Y-%m-%d"),
        "Processors": f"{len(os.sched_getaffinity(0))} × {processor()}",
        "Memory": f"{memory('MemTotal') / 2**30:.0f} GiB",
        "Kernel": f"{platform.system()} {platform.release()}",
        "File system": file_system(place),
        "Load before": f"{os.getloadavg()[0]:.2f}",
        "Sources": first_line("git", "-C", str(TOP), "rev-parse", "--short", "HEAD") or "not known",
        "Tools": "; ".join(first_line(tool, "--version") or tool for tool in tools if shutil.which(tool)),
        "Missing tools": ", ".join(tool for tool in tools if not shutil.which(tool)) or "none",
    }


def table(heads, rows):
    """A table whose first column has words and the others numbers."""
    lines = [heads, ["---", *["---:"] * (len(heads) - 1)], *rows]
    return "".join(f"| {' | '.join(cells)} |\n" for cells in lines)


def machine_table(facts, rounds):
    """The table of what the figures are of."""
    rows = [*facts.items(), ("Rounds", str(rounds))]
    return "### The machine\n\n" + table(["", ""], rows).replace("---:", "---")


def row(job, jobs):
    """The row of a job among those that it may be compared with."""
    if not job.runs:
        return [f"`{job.label}`", "wrong", "", "", "", "", ""]
    ratio = ""
    for other in jobs:
        if other.label == job.beside and other.runs:
            ratio = f"{rate(other) / rate(job):.2f} of `{other.label.split()[0]}`"
    middle = statistics.median(run.seconds for run in job.runs)
    fastest = min(job.runs, key=lambda run: run.seconds)
    return [f"`{job.label}`", milliseconds(job.best), milliseconds(middle), f"{rate(job):.2f}" if job.size else "", ratio,
            milliseconds(fastest.processor), mebibytes(job.peak)]


def set_tables(lines):
    """The tables of a set of lines."""
    heads = ["Command", "Best, ms", "Median, ms", "GB/s", "Time beside", "Processors, ms", "Peak, MiB"]
    jobs = lines.jobs + lines.threads
    for title, part in ((lines.title, lines.jobs), (f"Threads: {lines.title}", lines.threads)):
        yield f"### {title}\n\n" + table(heads, [row(job, jobs) for job in part])


def named(lines, name):
    """The job of this name over these lines, if it was measured."""
    return next((job for job in lines.jobs + lines.threads if job.name == name and job.runs), None)


def sweep_table(title, head, sweep, name, value):
    """A table of one value of each job by lines, which are named by what changes."""
    rows = [[name(lines), *(value(job) if job.runs else "wrong" for job in lines.jobs)] for lines in sweep]
    return f"### {title}\n\n" + table([head, *(f"`{job.name}`" for job in sweep[0].jobs)], rows)


def sweep_tables(plan):
    """The tables by size and by length."""

    def size(lines):
        return amount(lines.letters)

    def length(lines):
        return f"{lines.length:,} × {lines.count:,}"

    yield sweep_table("Best time by size, ms", "Letters", plan.sizes, size, lambda job: milliseconds(job.best))
    yield sweep_table("Peak of memory by size, MiB", "Letters", plan.sizes, size, lambda job: mebibytes(job.peak))
    yield sweep_table("GB/s by length of lines", "Letters × lines", plan.lengths, length, lambda job: f"{rate(job):.2f}")
    yield sweep_table("Peak of memory by length of lines, MiB", "Letters × lines", plan.lengths, length,
                      lambda job: mebibytes(job.peak))


def throughput(plan, note):
    """The plot of rates by command."""
    rows = []
    for name in BARS:
        jobs = [named(lines, name) for lines in plan.sets]
        if any(jobs):
            rows.append((name, [rate(job) if job else None for job in jobs]))
    return plots.bars("Throughput by command", note, "GB/s (more is better)", [lines.kind for lines in plan.sets], rows)


def by_size(plan, note):
    """The plot of times by size."""
    series = []
    for name in CURVES:
        jobs = [(lines.letters, named(lines, name)) for lines in plan.sizes]
        if any(job for _, job in jobs):
            series.append((name, [(size, job.best) for size, job in jobs if job]))
    sizes = {lines.letters: amount(lines.letters) for lines in plan.sizes}
    return plots.lines("Time by size", note, ("letters, in lines of 100", "time (less is better)"), sizes, series)


def markdown(plan, facts, pictures):
    """All tables and the plots, which lie in a folder."""
    parts = [machine_table(facts, plan.rounds), f"![Throughput by command]({pictures}/throughput.svg)\n"]
    for lines in plan.sets:
        parts += set_tables(lines)
    parts.append(f"![Time by size]({pictures}/sizes.svg)\n")
    return "\n".join([*parts, *sweep_tables(plan)])


def drawn(plan, facts):
    """The plots by the names of their files."""
    note = f"{facts['Processors']}, {facts['Kernel']}, {facts['Date']}; best of {plan.rounds}"
    return {"throughput.svg": throughput(plan, note), "sizes.svg": by_size(plan, note)}


def lacks(plan, text, pictures):
    """What isn't in the tables, and what is wrong with the plots."""
    sections = {title: body for title, _, body in (part.partition("\n") for part in text.split("### "))}
    for lines in plan.sets:
        body = sections[lines.title] + sections[f"Threads: {lines.title}"]
        for command in lines.commands:
            if not re.search(rf"^\| `{command}\b[^|]*` \| [\d.,]+ \| [\d.,]+ \|", body, re.M):
                yield f"{lines.title}: no figures of {command}"
    for sweep, word in ((plan.sizes, "size"), (plan.lengths, "length")):
        for title, body in sections.items():
            if f" by {word}" in title and len(re.findall(r"^\| [^|]+(?: \| [\d.,]+)+ \|$", body, re.M)) != len(sweep):
                yield f"{title}: figures are missing"
    for name, picture in pictures.items():
        try:
            width = int(ElementTree.fromstring(picture).get("width"))
        except (ElementTree.ParseError, TypeError) as error:
            yield f"{name}: {error}"
        else:
            if width > 900:
                yield f"{name}: {width} is too wide"
