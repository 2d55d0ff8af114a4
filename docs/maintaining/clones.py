#!/usr/bin/env python3
"""Builds the libraries of a checkout side by side, and shares what is built among checkouts of one machine.

    clones.py build [-j N] [NAME ..]   in a checkout: builds all libraries, or those of these crates and below, N at once (4)
    clones.py take FOLDER              in a checkout: links what FOLDER has built of each crate whose files are the same here
    clones.py gate FOLDER              in a checkout: links the libraries that a run of `rt ci` in FOLDER has proved so far, of the same crates

`build` proves each library over what earlier checks kept, so that `rt check` of any crate can begin at once. `rt check` alone builds the
libraries below one after another. `take` makes hard links of `out/rlib` and `out/incremental`: a check adds files there and changes none.
It takes a crate only if its own files are the same in both; begin both at the same commit. `gate` stamps the libraries that a run of the
gate leaves without a stamp, so that checks of the crates above them begin at once; it can be repeated while the gate runs. A check over them
is one for work in progress: the gate's own verdict comes from `rt ci`.
"""
from __future__ import annotations

import filecmp
import importlib.machinery
import importlib.util
import os
import shutil
import subprocess
import sys
import time
from concurrent.futures import FIRST_COMPLETED, Future, ThreadPoolExecutor, wait
from types import ModuleType

KIT = "/opt/rattle/bin/rtlib.py"


def load_kit() -> ModuleType:
    """Returns the kit's own library of `rt`, which knows crates, flags and locks."""
    loader = importlib.machinery.SourceFileLoader("rtlib", KIT)
    spec = importlib.util.spec_from_loader("rtlib", loader)
    assert spec is not None
    made = importlib.util.module_from_spec(spec)
    sys.modules["rtlib"] = made
    loader.exec_module(made)
    return made


def build(names: list[str], jobs: int) -> int:
    """Builds the libraries of the checkout at the current folder, each after those below it, and returns a status."""
    kit = load_kit()
    kit.guarded()
    kit.Crate.cuts_libraries = False
    kit.Crate.may_have_bugs = kit.Crate.may_be_empty = kit.Crate.may_call_c = True
    crates = sorted(kit.crates_below(os.getcwd()), key=lambda it: len(it.below()))
    kit.lock(crates)
    if names:
        wanted = {low.name for it in crates if it.name in names for low in [it, *it.below()]}
        crates = [it for it in crates if it.name in wanted]
    crates = [it for it in crates if it.makes_rlib()]
    lines = {it.name: it.count(rb"\n") for it in crates}
    # first those on which the most code stands
    weight = {it.name: sum(lines[o.name] for o in crates if it in o.below()) + lines[it.name] for it in crates}
    status: dict[str, int] = {}

    def work(crate) -> int:
        begun = time.time()
        with open(f"/tmp/build.{os.path.basename(os.getcwd())}.{crate.name}.log", "w", encoding="utf-8") as crate.out:
            os.makedirs(f"{crate.folder}/out", exist_ok=True)
            try:
                code = crate.build_rlib(["--jobs", "1"], anew=False)
            except SystemExit:
                code = 99
        print(f"{time.strftime('%H:%M:%S')} {crate.name} {'FAILED' if code else 'built'} {time.time() - begun:.0f} s", flush=True)
        return code

    left, running = list(crates), {}  # type: ignore[var-annotated]
    with ThreadPoolExecutor(jobs) as pool:
        while left or running:
            ready = [it for it in left if all(low.name in status for low in it.below())]
            for it in sorted(ready, key=lambda it: -weight[it.name])[: jobs - len(running)]:
                left.remove(it)
                if any(status[low.name] for low in it.below()):
                    status[it.name] = 98
                    continue
                future: Future[int] = pool.submit(work, it)
                running[future] = it
            if running:
                for future in wait(running, return_when=FIRST_COMPLETED).done:
                    status[running.pop(future).name] = future.result()
    bad = [name for name, code in status.items() if code]
    print(f"failed: {' '.join(bad)} (logs: /tmp/build.*.log)" if bad else "all built")
    return 1 if bad else 0


def same_files(one: str, other: str) -> bool:
    """Whether two folders of a crate have the same files, but for `out` and the edits of `must-fail`."""
    compared = filecmp.dircmp(one, other, ignore=["out", "must-fail"])
    if compared.left_only or compared.right_only or compared.funny_files:
        return False
    if any(not filecmp.cmp(f"{one}/{it}", f"{other}/{it}", shallow=False) for it in compared.common_files):
        return False
    return all(same_files(f"{one}/{it}", f"{other}/{it}") for it in compared.common_dirs)


def take(folder: str) -> int:
    """Links what another checkout has built, and returns a status."""
    for name in sorted(os.listdir("crates")):
        here, there = f"crates/{name}", f"{folder}/crates/{name}"
        stamp = "out/rlib/stamp"
        if not os.path.isfile(f"{there}/{stamp}"):
            continue
        if os.path.isfile(f"{here}/{stamp}") and filecmp.cmp(f"{here}/{stamp}", f"{there}/{stamp}", shallow=False):
            continue
        if not same_files(here, there):
            continue
        os.makedirs(f"{here}/out", exist_ok=True)
        for part in ("incremental", "rlib"):
            shutil.rmtree(f"{here}/out/{part}", ignore_errors=True)
            if os.path.isdir(f"{there}/out/{part}"):
                subprocess.run(["cp", "-al", f"{there}/out/{part}", f"{here}/out/{part}"], check=True)
        print(f"took {name}")
    return 0


def gate(folder: str) -> int:
    """Links the libraries that a run of the gate has proved, each with a stamp of its own, and returns a status."""
    kit = load_kit()
    kit.Crate.cuts_libraries = False
    taken: set[str] = set()
    for it in sorted(kit.crates_below(os.getcwd()), key=lambda it: len(it.below())):
        there = f"{folder}/crates/{it.name}/out/rlib/{it.name}.rlib"
        if not it.makes_rlib() or not os.path.isfile(f"{there}/format"):
            continue
        if any(low.name not in taken for low in it.below()) or not same_files(f"crates/{it.name}", f"{folder}/crates/{it.name}"):
            continue
        if it.is_built():
            if kit.sum_of(f"{it.rlib}/format") == kit.sum_of(f"{there}/format"):
                taken.add(it.name)
            continue
        to = f"crates/{it.name}/out/rlib"
        shutil.rmtree(to, ignore_errors=True)
        os.makedirs(to)
        subprocess.run(["cp", "-al", there, f"{to}/{it.name}.rlib"], check=True)
        with open(f"{to}/stamp", "w", encoding="utf-8") as stamp:
            stamp.write(it.stamp())
        taken.add(it.name)
        print(f"took {it.name}")
    return 0


def main(words: list[str]) -> int:
    if words[:1] == ["build"]:
        words = words[1:]
        jobs = 4
        if words[:1] == ["-j"]:
            jobs, words = int(words[1]), words[2:]
        return build(words, jobs)
    if words[:1] == ["take"] and len(words) == 2:
        return take(words[1])
    if words[:1] == ["gate"] and len(words) == 2:
        return gate(words[1])
    print(__doc__)
    return 0 if words in (["-h"], ["--help"]) else 1


if __name__ == "__main__":
    sys.exit(main(sys.argv[1:]))
