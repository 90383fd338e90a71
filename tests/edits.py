#!/usr/bin/env python3
"""The wrong bodies that the prover has to refuse: tests/edits/CRATE/NAME.edit, in the form of crates/CRATE/must-fail.

  tests/edits.py applies            says whether each still applies: its old text stands once in the file that it names
  tests/edits.py try [CRATE..]      tries those of these crates, or all, the ones in must-fail too, over what earlier
                                    checks kept in out/, and says by which goal each is refused

A crate is proved first, with what it stands on, where its files have changed since. Then each edit is made on a copy of
the crate, and tried over a copy of what its check kept. As many run side by side as there are processors and memory.
The last line is `N passed, M failed`.

What an edit makes of a crate, and what the prover's answer says of it, is judged by the kit's own `rt`, as the gate
judges it. Its program is read as a module for that.
"""
import contextlib
import importlib.machinery
import importlib.util
import io
import os
import shutil
import subprocess
import sys
import tempfile
import time

TOP = os.path.dirname(os.path.dirname(os.path.abspath(__file__)))
NO_KIT = "the kit's `rt` has no longer what this file takes of it (read_edit, must_fail, in_lanes): "
BEGUN = time.monotonic()


def kit():
    """The kit's `rt`, as a module."""
    page = subprocess.run(["rt", "doc"], capture_output=True, text=True, check=True).stdout.strip()
    loader = importlib.machinery.SourceFileLoader("rt", f"{os.path.dirname(page)}/bin/rt")
    module = importlib.util.module_from_spec(importlib.util.spec_from_loader("rt", loader))
    loader.exec_module(module)
    for name in ("read_edit", "must_fail", "in_lanes", "need", "rtlib"):
        if not hasattr(module, name):
            sys.exit(NO_KIT + name)
    return module


def edits_of(crate, everywhere):
    """The edits of a crate, as files: those of tests/edits, and the gate's own where they are asked for."""
    folders = [f"{TOP}/tests/edits/{crate}"] + [f"{TOP}/crates/{crate}/must-fail"] * everywhere
    found = [f"{it}/{name}" for it in folders if os.path.isdir(it) for name in os.listdir(it)]
    return sorted(it for it in found if it.endswith(".edit"))


def say(text):
    spent = int(time.monotonic() - BEGUN)
    print(f"{spent // 60:3}:{spent % 60:02}  {text}", flush=True)


def ended(passed, failed):
    print(f"{passed} passed, {failed} failed")
    return 1 if failed else 0


def applies():
    """Says of each edit that does not apply why, and counts them."""
    rt, passed, failed = kit(), 0, 0
    for crate in sorted(os.listdir(f"{TOP}/tests/edits")):
        for edit in edits_of(crate, False):
            why = rt.read_edit(edit, f"{TOP}/crates/{crate}")[1]
            passed, failed = passed + (not why), failed + bool(why)
            if why:
                print(f"FAILED: {os.path.relpath(edit, TOP)}: {why}")
    return ended(passed, failed)


def proved(rt, crate, is_used):
    """Proves a crate as it is, over what earlier checks kept, and returns whether that went well."""
    with tempfile.TemporaryFile("w+", errors="replace") as crate.out, contextlib.redirect_stdout(io.StringIO()):
        try:
            os.makedirs(f"{crate.folder}/out", exist_ok=True)
            status = crate.build_rlib(["--jobs", "1"], anew=False) if is_used else crate.check(["--jobs", "1"])
        except SystemExit:
            status = 1
        crate.out.seek(0)
        said = crate.out.read().splitlines()
    if status:
        say("\n".join([f"{crate.name} NOT PROVED as it is:", *said[-6:]]))
    return not status


def tried(rt, crate, edit):
    """Tries an edit, and returns whether the prover refused it."""
    with tempfile.TemporaryDirectory(prefix="edit-kept-") as room:
        kept = shutil.copytree(f"{crate.folder}/out/incremental", f"{room}/incremental")
        well, text = rt.must_fail(crate, edit, ["--jobs", "1"], kept)
    say(text.removeprefix("must-fail "))
    return well


def wanted(crates, names):
    """The crates of these names, or all, that have edits."""
    for name in names:
        if name not in {it.name for it in crates}:
            sys.exit(f"crates.txt lists no crate {name}")
    return [it for it in crates if (not names or it.name in names) and edits_of(it.name, True)]


def tasks_of(rt, crates, chosen):
    """What is to be done for the edits of these crates, as `in_lanes` of the kit takes it: each crate is proved once
    those below it are, and each edit is tried once its crate is."""
    used = {below.name for it in crates for below in it.below()}
    needed = {it.name for crate in chosen for it in [crate, *crate.below()]}
    tasks = {}
    for crate in [it for it in crates if it.name in needed]:
        waits = [(it.name, "proof") for it in crate.below()]

        def prove(given, jobs, crate=crate, waits=waits):
            return all(given[it] for it in waits) and proved(rt, crate, crate.name in used)

        tasks[crate.name, "proof"] = (waits, crate.count(rb"\n"), rt.need(crate), prove)
    for crate in chosen:
        for edit in edits_of(crate.name, True):

            def test(given, jobs, crate=crate, edit=edit):
                return given[crate.name, "proof"] and tried(rt, crate, edit)

            tasks[crate.name, edit] = ([(crate.name, "proof")], 1, rt.need(crate), test)
    return tasks


def try_all(names):
    """Proves what is to be proved, tries each edit of these crates, and counts those that were refused."""
    rt = kit()
    rt.rtlib.guarded()
    os.chdir(TOP)
    # (lowest first, as `in_lanes` wants them)
    crates = sorted(rt.rtlib.crates_below(TOP), key=lambda it: len(it.below()))
    given = rt.in_lanes(tasks_of(rt, crates, wanted(crates, names)))
    refused = [well for (_, what), well in given.items() if what != "proof"]
    unproved = sorted(name for (name, what), well in given.items() if what == "proof" and not well)
    if unproved:
        print(f"NOT PROVED as they are, so that none of their edits was tried: {' '.join(unproved)}")
    return ended(sum(refused), len(refused) - sum(refused))


if __name__ == "__main__":
    words = sys.argv[1:]
    if words == ["applies"]:
        sys.exit(applies())
    if words[:1] == ["try"]:
        sys.exit(try_all(words[1:]))
    sys.exit(__doc__)
