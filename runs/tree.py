#!/usr/bin/env python3
"""Makes a tree with crates that are kept as text: those here, and those of benches/programs.

usage: runs/tree.py FOLDER [NAME ..]      makes FOLDER/tree, with the crates here of these names, or all
       runs/tree.py --fmt                 lays their files out here, as rt fmt does

The files of such a crate end with .txt, since the toolchain refuses .rt and .antt files that belong to no crate of crates.txt.
Its file `crate` is its line there. The tree has it with the plain endings, beside a copy of the crates that it stands on.
"""

import functools
import glob
import os
import re
import shutil
import subprocess
import sys
import tempfile

HERE = os.path.dirname(os.path.abspath(__file__))
TOP = os.path.dirname(HERE)


def names_in(folder=HERE):
    """The crates that a folder keeps as text, by name."""
    return sorted(os.path.basename(os.path.dirname(it)) for it in glob.glob(os.path.join(folder, "*", "crate")))


def lines_of(path):
    """The lines of a crates.txt, by the names of the crates."""
    with open(path, encoding="utf-8") as file:
        return {it.split(":")[0].split()[0]: it.strip() for it in file if it.strip() and not it.startswith("#")}


def with_below(names, lines):
    """These crates, and all that they stand on in the tree."""
    found, left = set(), list(names)
    while left:
        name = left.pop()
        if name in lines and name not in found:
            found.add(name)
            left += lines[name].split(":")[1].split()
    return found


@functools.lru_cache(maxsize=None)
def with_tests():
    """The crates that have tests, each with the crates whose names its files use. It reads all crates, so once is enough."""
    folders = {name: f"{TOP}/crates/{name}/src/**/*.rt" for name in lines_of(os.path.join(TOP, "crates.txt"))}
    found = {}
    for name, pattern in (folders | {name: f"{HERE}/{name}/src/**/*.rt.txt" for name in names_in()}).items():
        text = ""
        for path in glob.glob(pattern, recursive=True):
            with open(path, encoding="utf-8") as file:
                text += file.read()
        if "#[test]" in text:
            found[name] = set(re.findall(r"^use (\w+)(?:::|;)", text, re.M))
    return found


def tests_of(crate):
    """The crates with tests that call a library themselves, and the library where it has tests of its own."""
    return [name for name, uses in with_tests().items() if name == crate or crate in uses]


def text_files(source):
    """The files of a crate that is kept as text, each with the place that it has in a tree."""
    for folder, _, files in os.walk(source):
        for file in (it for it in files if it.endswith(".txt")):
            path = os.path.join(folder, file)
            yield path, os.path.relpath(path, source).removesuffix(".txt")


def put(source, crate):
    """Makes a crate of the files that are kept as text. What was proved of it before stays."""
    for part in ("src", "specs", "proofs"):
        shutil.rmtree(os.path.join(crate, part), ignore_errors=True)
    for path, place in text_files(source):
        target = os.path.join(crate, place)
        os.makedirs(os.path.dirname(target), exist_ok=True)
        shutil.copy2(path, target)


def copy(source, crate, is_proved):
    """Copies a crate of the tree, with what is proved of it or without."""
    os.makedirs(crate, exist_ok=True)
    parts = [os.path.join(source, it) for it in sorted(os.listdir(source)) if is_proved or it != "out"]
    subprocess.run(["cp", "-au", "--reflink=auto", *parts, crate], check=True)


def made(folder, sources, is_proved=False):
    """Makes FOLDER/tree with the crates of these folders and what they stand on: crates here, and copies, with their proofs or without."""
    tree = os.path.join(os.path.abspath(folder), "tree")
    lines = lines_of(os.path.join(TOP, "crates.txt"))
    known = {name: os.path.join(HERE, name) for name in names_in()} | {os.path.basename(it): it for it in sources}
    kept = {name: lines_of(os.path.join(it, "crate"))[name] for name, it in known.items()}
    wanted = with_below(map(os.path.basename, sources), lines | kept)
    for name in wanted & set(lines):
        copy(os.path.join(TOP, "crates", name), os.path.join(tree, "crates", name), is_proved)
    for name in wanted & set(kept):
        put(known[name], os.path.join(tree, "crates", name))
    shutil.copy2(os.path.join(TOP, "HANDLES"), tree)
    with open(os.path.join(tree, "crates.txt"), "w", encoding="utf-8") as file:
        file.writelines(f"{line}\n" for name, line in (lines | kept).items() if name in wanted)
    return tree


def lay_out(source):
    """Lays out the files of a crate that is kept as text."""
    with tempfile.TemporaryDirectory() as folder:
        crate = os.path.join(folder, os.path.basename(source))
        put(source, crate)
        shutil.copy2(os.path.join(source, "crate"), os.path.join(folder, "crates.txt"))
        subprocess.run(["rt", "fmt"], cwd=crate, check=True)
        for path, place in text_files(source):
            shutil.copyfile(os.path.join(crate, place), path)


def main(words):
    if words == ["--fmt"]:
        for name in names_in():
            lay_out(os.path.join(HERE, name))
    elif words and not words[0].startswith("-") and set(words[1:]) <= set(names_in()):
        print(made(words[0], [os.path.join(HERE, it) for it in words[1:] or names_in()]))
    else:
        print(__doc__)
        sys.exit(0 if words in (["--help"], ["-h"]) else 2)


if __name__ == "__main__":
    main(sys.argv[1:])
