"""The table of groups that bench/run prints."""
import os
import shutil
import subprocess
import tempfile
import time

from calculus import singular_text
from runs import best

HERE = os.path.dirname(os.path.abspath(__file__))
FOLDER = os.path.join(HERE, "groups")
PATIENCE = 120
HEAD = (f"{'group':<17} {'entries':>7} {'end':<8} {'complete':>9} {'by cost: entries, end, complete':>31} {'questions':>9} {'MB':>6} "
        f"{'check':>6} {'Singular: basis, reductions, whole run':>40} {'ratio':>6} {'growth':>6}")


def rows():
    """The lines of bench/groups/list, as name, family, size, and the options of `solo`."""
    with open(os.path.join(FOLDER, "list"), encoding="ascii") as file:
        for line in file:
            name, family, size, options, _ = (part.strip() for part in line.split("|"))
            yield name, family, int(size), options.split()


def singular(name):
    """Seconds of the strong basis, of the reductions and of the whole run in Singular; None where it isn't there or is too slow."""
    if shutil.which("Singular") is None:
        return None
    texts = []
    for ending in ("pres", "session"):
        with open(os.path.join(FOLDER, f"{name}.{ending}"), encoding="ascii") as file:
            texts.append(file.read())
    with tempfile.NamedTemporaryFile("w", suffix=".sing") as file:
        file.write(singular_text(*texts))
        file.flush()
        start = time.perf_counter()
        try:
            ran = subprocess.run(["Singular", "-q", file.name], capture_output=True, text=True, timeout=PATIENCE)
        except subprocess.TimeoutExpired:
            return None
        whole = time.perf_counter() - start
    found = [line.split() for line in ran.stdout.splitlines() if line.startswith("result")]
    return (int(found[0][2]) / 1000, int(found[0][3]) / 1000, whole, int(found[0][4])) if found else None


def zeros(report):
    """How many subjects the report shows to be 0."""
    return sum(line.startswith("proof ") for line in report.splitlines())


def completed(report):
    """How many entries a report has, and the word for how its log ends."""
    lines = report.splitlines()
    return sum(line.startswith("entry ") for line in lines), next((line.split()[1] for line in lines if line.startswith("end ")), lines[0])


def measured(name, options):
    """Entries, end and seconds of the completion, the same by the order of cost, seconds of the questions, peak memory, seconds of
    the check, and the report."""
    with tempfile.TemporaryDirectory() as folder:
        for ending in ("pres", "session"):
            shutil.copy(os.path.join(FOLDER, f"{name}.{ending}"), os.path.join(folder, ending))
        open(os.path.join(folder, "none"), "w").close()
        alone = best(folder, ["solo", *options, "pres", "none"])
        by_cost = best(folder, ["solo", "--order", "2", *options, "pres", "none"])
        whole = best(folder, ["solo", *options, "pres", "session"])
        with open(os.path.join(folder, "report"), "w", encoding="ascii") as file:
            file.write(whole.answer)
        check = best(folder, ["check", "pres", "report"])
    entries, end = completed(whole.answer)
    if check.status != 0:
        end += " UNCHECKED"
    other = (*completed(by_cost.answer), by_cost.seconds)
    return entries, end, alone.seconds, other, whole.seconds - alone.seconds, whole.memory, check.seconds, whole.answer


def table(wanted):
    """Prints a row for each group whose name or family has one of the wanted words, or for all."""
    print(HEAD)
    seen = {}
    for name, family, size, options in rows():
        if wanted and not any(word in name or word in family for word in wanted):
            continue
        entries, end, complete, by_cost, questions, memory, check, report = measured(name, options)
        seen[family, size] = complete
        growth = f"{complete / seen[family, size // 2]:>6.1f}" if (family, size // 2) in seen and size % 2 == 0 else f"{'':>6}"
        beside = singular(name)
        other = f"{beside[0]:>20.3f} {beside[1]:>11.3f} {beside[2]:>7.3f}" if beside else f"{'':>40}"
        ratio = f"{(complete + questions) / beside[2]:>6.2f}" if beside else f"{'':>6}"
        if beside and end == "sealed" and "hom" not in report and zeros(report) != beside[3]:
            end = "DIFFERS"
        cost = f"{by_cost[0]:>11} {by_cost[1]:<8} {by_cost[2]:>10.4f}"
        print(f"{name:<17} {entries:>7} {end:<8} {complete:>9.4f} {cost} {questions:>9.4f} {memory:>6.1f} {check:>6.3f} {other} {ratio} {growth}", flush=True)
