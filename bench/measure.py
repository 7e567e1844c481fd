"""Runs two programs in turn and compares their least processor times and their peaks of memory."""
import glob
import os
import shutil
import subprocess
import sys
import tempfile

HERE = os.path.dirname(os.path.abspath(__file__))
ROOT = os.path.join(HERE, "..")
PLAIN = os.path.join(HERE, "plain")
FOLDER = tempfile.mkdtemp()


def compiled(name):
    """The program of bench/plain/NAME.rs, built by rustc -O into a temporary folder."""
    program = os.path.join(FOLDER, name)
    if not os.path.exists(program):
        source = os.path.join(PLAIN, name + ".rs")
        subprocess.run(["rustc", "-O", "--edition", "2021", "-o", program, source], check=True)
    return program


def lines_below(crates):
    """The lines of crates.txt for these crates and for those that they stand on, lowest first."""
    wanted, kept = set(crates), []
    with open(os.path.join(ROOT, "crates.txt")) as lines:
        for line in reversed(lines.read().split("\n")):
            name, _, lower = line.partition(":")
            if name in wanted:
                wanted.update(lower.split())
                kept.insert(0, line)
    return kept


def built(folder, name, crates, words):
    """Our program of bench/ours/NAME.txt, which uses these crates and those below, built in a folder over a copy of
    them and run once with words. What its proof asks for of a function stands in NAME.FUNCTION.MODULE.txt."""
    lines = lines_below(crates)
    copied = [line.split(":")[0] for line in lines]
    for crate in copied:
        shutil.copytree(
            os.path.join(ROOT, "crates", crate), os.path.join(folder, "crates", crate),
            ignore=shutil.ignore_patterns("must-fail", "README.md"),
        )
    program = f"{name}_bench"
    with open(os.path.join(folder, "crates.txt"), "w") as out:
        out.write("\n".join(lines + [f"{program}: " + " ".join(sorted(copied + ["itoa"]))]) + "\n")
    shutil.copy(os.path.join(ROOT, "HANDLES"), folder)
    source = os.path.join(folder, "crates", program, "src")
    os.makedirs(source)
    shutil.copy(os.path.join(HERE, "ours", f"{name}.txt"), os.path.join(source, "main.rt"))
    crate = os.path.dirname(source)
    for proof in glob.glob(os.path.join(HERE, "ours", f"{name}.*.*.txt")):
        _, function, module, _ = os.path.basename(proof).split(".")
        place = os.path.join(crate, "proofs", function)
        os.makedirs(place, exist_ok=True)
        shutil.copy(proof, os.path.join(place, f"{module}.antt"))
    run = subprocess.run(["rt", "run", "--", *words], cwd=crate, capture_output=True, text=True)
    if run.returncode != 0:
        sys.exit(run.stdout + run.stderr)
    return os.path.join(crate, "out", program)


def once(program, words):
    """Processor seconds, peak megabytes and output of one run."""
    notes = os.path.join(FOLDER, "notes")
    run = subprocess.run([compiled("measure"), notes, program, *words], stdout=subprocess.PIPE, check=True)
    with open(notes) as lines:
        _, micros, kilobytes = map(int, lines.read().split())
    return micros / 1e6, kilobytes / 1024, run.stdout


def head():
    """Prints the heads of the columns."""
    print(f"{'':36} {'ours':>10} {'plain':>10} {'ratio':>6} {'ours':>12} {'plain':>10} {'ratio':>6}")


def compare(label, ours, plain, words, runs=5):
    """Prints one line: the least time and the peak of each program, and the ratios; answers ours."""
    results = {}
    outputs = {}
    for _ in range(runs):
        for name, program in (("ours", ours), ("plain", plain)):
            seconds, peak, outputs[name] = once(program, words)
            best = results.get(name, (seconds, peak))
            results[name] = (min(best[0], seconds), max(best[1], peak))
    if outputs["ours"] != outputs["plain"]:
        sys.exit(f"{label}: the two programs answer differently")
    (ours_s, ours_mb), (plain_s, plain_mb) = results["ours"], results["plain"]
    print(
        f"{label:36} {ours_s:8.3f} s {plain_s:8.3f} s {ours_s / plain_s:6.2f}"
        f" {ours_mb:9.1f} MB {plain_mb:7.1f} MB {ours_mb / plain_mb:6.2f}"
    )
    return results["ours"]
