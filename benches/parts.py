#!/usr/bin/env python3
"""parts.py [time]: what the parts cost: sets of words, the verifier, both machines, the store, the parts of a request.

Builds the program of benches/bench (Rattle, its files named .rs here, since the gate takes no .rt file that it does not
prove: the program has no contracts, and proving it safe takes three minutes) as a crate in a copy of the repository, and
runs it. Without a word each work is done once, and what came of it has to be benches/bench/stdout. With the word `time` the
least time of some rounds is printed beside each. What was built below it is taken along from crates/*/out/. Needs `rt`.
"""

import shutil
import subprocess
import sys
import tempfile
from pathlib import Path

ROOT = Path(__file__).resolve().parent.parent
SOURCES = ROOT / "benches" / "bench"
CRATES = (
    "bench: insn assembler range scalar machine verifier flat_machine params consent clients authentication pkce hook_host"
    " hook_chain token_store messages heads endpoints http\n"
)


def copy_to(room):
    """The crates of the repository, with what was built of them, and the bench as one more."""
    shutil.copytree(ROOT / "crates", room / "crates", ignore=shutil.ignore_patterns("incremental"))
    shutil.copy(ROOT / "HANDLES", room)
    (room / "crates.txt").write_text((ROOT / "crates.txt").read_text(encoding="utf-8") + CRATES, encoding="utf-8")
    source = room / "crates" / "bench" / "src"
    source.mkdir(parents=True)
    for file in SOURCES.glob("*.rs"):
        shutil.copy(file, source / f"{file.stem}.rt")
    subprocess.run(["git", "init", "-q", room], check=True)
    return source.parent


def main(words):
    if words not in ([], ["time"]):
        print(__doc__, end="", file=sys.stderr)
        return 2
    with tempfile.TemporaryDirectory(prefix="bench-") as room:
        crate = copy_to(Path(room))
        built = subprocess.run(["rt", "run"], cwd=crate, stdout=subprocess.PIPE, stderr=subprocess.PIPE, text=True)
        program = crate / "out" / "bench"
        if not program.is_file():
            print(f"{built.stdout}{built.stderr}", end="", file=sys.stderr)
            return 2
        came = subprocess.run([program, *words], stdout=subprocess.PIPE, text=True)
    print(came.stdout, end="")
    if came.returncode or words:
        return came.returncode
    is_as_wanted = came.stdout == (SOURCES / "stdout").read_text(encoding="utf-8")
    print("as wanted" if is_as_wanted else "not as wanted: benches/bench/stdout")
    return 0 if is_as_wanted else 1


if __name__ == "__main__":
    sys.exit(main(sys.argv[1:]))
