#!/usr/bin/env python3
"""Hands `rt check` the libraries that the gate (`rt ci`) has built, so that it proves none of them again.

    bench/libraries.py            those of this checkout, once its gate has passed
    bench/libraries.py CHECKOUT   those that the gate of another checkout here built of the same texts

A library of the gate has statements without their proofs: a check over it reads less than over one that `rt
check` builds by itself. It is taken only if its crate and all below it have the text that it was built of.
The result of a check over it is no verdict: only the gate, which proves all of that itself, gives one.
"""
import importlib.machinery
import importlib.util
import os
import shutil
import subprocess
import sys

sys.dont_write_bytecode = True


def kit():
    """The module of the kit that knows how libraries are stored: it is next to the program `rt`."""
    file = os.path.join(os.path.dirname(os.path.realpath(shutil.which("rt"))), "rtlib.py")
    loader = importlib.machinery.SourceFileLoader("rtlib", file)
    module = importlib.util.module_from_spec(importlib.util.spec_from_loader("rtlib", loader))
    sys.modules["rtlib"] = module
    loader.exec_module(module)
    stamp, known = module.Crate.stamp, {}

    def once(crate):
        if crate.folder not in known:
            known[crate.folder] = stamp(crate)
        return known[crate.folder]

    module.Crate.stamp = once
    return module


def crates(rtlib, top):
    os.chdir(top)
    return sorted(rtlib.crates_below(top), key=lambda it: len(it.below()))


def is_newer(rtlib, crate):
    """Whether the library was put there after the last change of its crate and of all below it."""
    built = os.stat(crate.rlib).st_mtime
    texts = [file for it in [crate, *crate.below()] for file in rtlib.files_of(it.folder)]
    return all(os.stat(file).st_mtime < built for file in texts)


def fits(rtlib, crate, other):
    """Whether all below the crate are the very libraries below its library: statements fit no others."""
    below = {it.name: it for it in (other or [])}
    same = lambda it: rtlib.sum_of(f"{it.rlib}/format") == rtlib.sum_of(f"{below.get(it.name, it).rlib}/format")
    return all(same(it) for it in crate.below())


def link(one, other):
    try:
        os.link(one, other)
    except OSError:
        shutil.copyfile(one, other)


def main():
    rtlib = kit()
    here = subprocess.run(["git", "rev-parse", "--show-toplevel"], check=True, capture_output=True, text=True)
    own = crates(rtlib, here.stdout.strip())
    other = {it.name: it for it in crates(rtlib, os.path.abspath(sys.argv[1]))} if len(sys.argv) > 1 else {}
    handed = []
    for crate in own:
        made = other.get(crate.name) if other else crate
        if crate.is_program or made is None or not os.path.isfile(f"{made.rlib}/format"):
            continue
        if not is_newer(rtlib, made) or made.stamp() != crate.stamp() or crate.is_built():
            continue
        if not fits(rtlib, crate, other.values()):
            continue
        folder = os.path.dirname(crate.rlib)
        if other:
            shutil.rmtree(folder, ignore_errors=True)
            shutil.copytree(made.rlib, crate.rlib, copy_function=link)
        with open(f"{folder}/stamp", "w", encoding="utf-8") as file:
            file.write(crate.stamp())
        handed.append(crate.name)
    print(f"{len(handed)} libraries:", " ".join(handed))


main()
