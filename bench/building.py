"""Builds a program of this folder over copies of the crates. What was checked before in crates/*/out is used again."""
import os
import shutil
import subprocess
import sys

TOP = os.path.dirname(os.path.dirname(os.path.abspath(__file__)))
BENCH = os.path.join(TOP, "bench")


def below(used, name):
    """The crate and all that it uses."""
    found = {name}
    for low in used.get(name, []):
        found |= below(used, low) if low in used else set()
    return found


def build(folder, name, uses, proofs=None):
    """The program NAME.rattle, which uses these libraries, built in the folder. `proofs` has its files of proofs."""
    with open(os.path.join(TOP, "crates.txt")) as file:
        lines = [line for line in file if ":" in line and not line.startswith("#")]
    used = {line.split(":")[0]: line.split(":")[1].split() for line in lines}
    crates = os.path.join(folder, "crates")
    wanted = set().union(*(below(used, use) for use in uses if use in used))
    for crate in wanted:
        shutil.copytree(os.path.join(TOP, "crates", crate), os.path.join(crates, crate))
    shutil.copy(os.path.join(TOP, "HANDLES"), folder)
    with open(os.path.join(folder, "crates.txt"), "w") as file:
        file.writelines(line for line in lines if line.split(":")[0] in wanted)
        file.write(f"{name}_bench: {' '.join(uses)}\n")
    program = os.path.join(crates, f"{name}_bench")
    os.makedirs(os.path.join(program, "src"))
    shutil.copy(os.path.join(BENCH, f"{name}.rattle"), os.path.join(program, "src", "main.rt"))
    for file, text in (proofs or {}).items():
        path = os.path.join(program, "proofs", file)
        os.makedirs(os.path.dirname(path), exist_ok=True)
        with open(path, "w") as written:
            written.write(text)
    ran = subprocess.run(["rt", "run"], cwd=program, capture_output=True, text=True)
    made = os.path.join(program, "out", f"{name}_bench")
    if not os.access(made, os.X_OK):
        sys.exit((ran.stdout + ran.stderr)[-2000:] + f"\nthe program could not be built: try `rt check` in the crates {', '.join(uses)} first")
    return made
