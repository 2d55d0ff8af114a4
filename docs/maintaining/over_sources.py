#!/usr/bin/env python3
"""Checks a crate before the crates below it are proved: those without a library are read as source, and not proved themselves.

    over_sources.py NAME [FLAGS ..]    in a checkout: `rattle check` of the crate with these flags, one job

Such a check shows the errors of a crate while those below it are in work. `--only NAME` keeps it to the functions of the crate: without it the
functions of the crates that are read as source are checked too, as are those that the chosen ones call. It is no verdict: `rt ci` gives that.
"""
from __future__ import annotations

import os
import subprocess
import sys

from clones import load_kit


def words_of(kit, crates: dict, name: str) -> list[str]:
    """Returns the words of `rattle check`, in which each crate below without a library, or over one without, is a source."""
    built: dict[str, bool] = {}

    def is_built(it) -> bool:
        if it.name not in built:
            built[it.name] = it.is_built() and all(is_built(low) for low in it.deps)
        return built[it.name]

    own = crates[name]
    below = own.below()
    sources = [it for it in below if not is_built(it)]
    externs = {it.name for it in [*own.deps, *(low for it in sources for low in it.deps)] if is_built(it)}
    of_kit = {*own.of_kit, *(k for it in sources for k in it.of_kit), *(["core"] if sources else [])}
    words = ["--crate-name", name, "src/main.rt" if own.is_program else "src/lib.rt"]
    words += [word for k in sorted(of_kit) for word in ("--extern", f"{k}={kit.KIT}/rlibs/{k}.rlib")]
    words += ["-L", f"dependency={kit.KIT}/rlibs"]
    words += [word for n in sorted(externs) for word in ("--extern", f"{n}={crates[n].rlib}")]
    words += [word for it in below if is_built(it) for word in ("-L", f"dependency={os.path.dirname(it.rlib)}")]
    for it in sources:
        uses = dict.fromkeys(["core", *it.of_kit, *(low.name for low in it.deps)])
        words += ["--lib", f"{it.name}:{','.join(uses)}={it.folder}/src/lib.rt"]
    words += ["--antt-project", f"{kit.KIT}/rattle/logic/antt-project.json", "--logic-built", f"{kit.KIT}/logic_built"]
    return [*words, "--links", f"{name}={'c' * own.has_c}", "--incremental", "out/incremental", "--progress", "--jobs", "1"]


def main(words: list[str]) -> int:
    if not words or words[0].startswith("-"):
        print(__doc__)
        return 2
    kit = load_kit()
    kit.Crate.cuts_libraries = False
    crates = {it.name: it for it in kit.crates_below(os.getcwd())}
    folder = crates[words[0]].folder
    os.makedirs(f"{folder}/out", exist_ok=True)
    return subprocess.run([f"{kit.KIT}/bin/rattle", "check", *words_of(kit, crates, words[0]), *words[1:]], cwd=folder).returncode


if __name__ == "__main__":
    sys.exit(main(sys.argv[1:]))
