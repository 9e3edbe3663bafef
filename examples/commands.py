"""commands.py WORK TOP LOADER: runs each command that stands in a line of its own in a page, at the top of a fresh copy of the tree TOP
for each page, and each snippet of Python, whose output is shown behind it. `test` calls it.

The programs on the path are the copies NAME.copy in the folder WORK, started by LOADER, if that is not empty. A command is to end with
0, and one whose comment names a flaw with 4. LEFT says of each other command why it is not run here. What needs Python's packages or the
shared library, which TEZGUMI_LIBRARY names or bindings/build made, and has them not, is reported by a line "not tested".
"""
import glob
import os
import pathlib
import re
import shutil
import subprocess
import sys

work, top, loader = pathlib.Path(sys.argv[1]), pathlib.Path(sys.argv[2]).resolve(), sys.argv[3]
PAGES = ["README.md", "CONTRIBUTING.md", "examples/README.md", "docs/*.md", "bindings/*.md", "bindings/*/*.md"]
COMMAND = re.compile(r"(cd|mkdir|rt|printf|python3|pip|apt-get|tar|export|cc|mpicc|mpirun|git|tezgumi-plan|lb_sim|lb_report|charm_run|hot_spot|heat"
                     r"|\./\S+|(?:bindings|benches|docs|examples|runs|packaging|\.ci|tezgumi-VERSION\S*)/\S+)(?= |$)")
# What is not run here, and why.
LEFT = {
    r"\./plan \S|\./run \S": "the test of README.md in examples/test runs those of a clone",
    r"rt new |rt lemma ": "the tutorial's crates, which test makes",
    r"cd crates/lb_sim && rt run|rt ci|rt check": "it proves crates, which the gate does",
    r"tar |tezgumi-VERSION|\./install|pip |bindings/(build|install|dist)|bindings/mpi/build|apt-get ": "packaging/test installs what is built",
    r"export |cc |mpicc |mpirun |\./plan$|\./p4est|\./beside": "bindings/test compiles and runs these",
    r"\./workload |python3 merge_(events|traces).py |charm_run --replay run.list ": "bindings/test runs the chares in C++",
}
NUMBERS = re.compile(r"[a-z_]+ +[\d.]+( |$)")


def blocks(text):
    """Yields the blocks of code of a page: what stands behind the fence, or None for one that is indented, and the lines."""
    kind, lines, fenced = None, [], False
    for line in [*text.split("\n"), ""]:
        if line.startswith("```"):
            if lines:
                yield kind, lines
            fenced, kind, lines = not fenced, line[3:] if not fenced else None, []
        elif fenced or line.startswith("    "):
            lines.append(line if fenced else line[4:])
        elif lines and line:
            yield None, lines
            lines = []
    if lines:
        yield None, lines


def bin_folder():
    """The programs by their names, as the shell finds them; and rt, which tries the program of the folder that it is called in."""
    folder = work / "bin"
    folder.mkdir(exist_ok=True)
    scripts = {name: f'exec {loader} "{work}/{name}.copy" "$@"' for name in ("lb_sim", "lb_report", "charm_run", "hot_spot", "heat")
               if (work / f"{name}.copy").exists()}
    scripts["tezgumi-plan"] = f'exec "{python}" -B -m tezgumi "$@"'
    scripts["python3"] = f'exec "{python}" -B "$@"'
    scripts["rt"] = '[[ $1 == try && $2 == -- ]] || exit 2; shift 2; exec "${PWD##*/}" "$@"'
    for name, script in scripts.items():
        (folder / name).write_text(f"#!/bin/bash\n{script}\n")
        (folder / name).chmod(0o755)
    return folder, set(scripts)


def has_numpy(found):
    return subprocess.run([found, "-c", "import numpy, matplotlib"], capture_output=True).returncode == 0


python = next((it for it in ("python3", "/usr/bin/python3") if shutil.which(it) and has_numpy(it)), None)
python = python and shutil.which(python)
library = os.environ.get("TEZGUMI_LIBRARY") or str(top / "bindings/out/lib/libtezgumi.so")
has_planner = python is not None and os.path.exists(library)
copy = work / "clone"
folder, known = bin_folder()
env = {**os.environ, "PATH": f"{folder}:{os.environ['PATH']}", "PYTHONPATH": str(copy / "bindings/python"), "TEZGUMI_LIBRARY": library}
passed, faults, untested = 0, [], set()


def run(words, seconds):
    """Runs these words at the top of the copy, which is made before the first command of a page."""
    if not copy.exists():
        shutil.copytree(top, copy, ignore=shutil.ignore_patterns("out", ".git", "__pycache__"))
    return subprocess.run(words, cwd=copy, env=env, capture_output=True, text=True, timeout=seconds, stdin=subprocess.DEVNULL)


def run_block(page, lines):
    """Runs the commands of a block one after another, in one shell, and notes each that ends otherwise than it should."""
    global passed
    script, asked = ["set -u"], []
    for line in lines:
        text = re.sub(r"\s+#.*", "", line)
        if not COMMAND.match(text) or NUMBERS.match(text) or any(re.match(left, text) for left in LEFT):
            continue
        words = set(re.findall(r"[\w-]+", text))
        if words & {"tezgumi-plan", "python3"} and not has_planner:
            untested.add("the commands of Python, which need numpy, matplotlib and the library that bindings/build makes")
            continue
        if text.split()[0] in ("lb_sim", "lb_report", "charm_run", "hot_spot", "heat") and text.split()[0] not in known:
            untested.add(f"the commands of {text.split()[0]}, which was not run before")
            continue
        asked.append((text, 4 if re.search(r"#.*(Wrong|flaw)", line) else 0))
        script.append(text.replace("/tmp/", f"{work}/") + f"\necho $? >>'{work}/statuses'")
    if not asked:
        return
    (work / "statuses").write_text("")
    ran = run(["bash", "-c", "\n".join(script)], 300)
    for (text, wanted), status in zip(asked, (work / "statuses").read_text().split() + [None] * len(asked)):
        if status == str(wanted):
            passed += 1
        else:
            faults.append(f"{page}: {text}: ended with {status}, and not {wanted}\n{ran.stderr[-600:]}")


def run_snippet(page, lines, wanted):
    global passed
    if not has_planner:
        untested.add("the snippets of Python, which need numpy, matplotlib and the library that bindings/build makes")
        return
    ran = run([python, "-B", "-c", "\n".join(lines)], 120)
    if ran.stdout == "\n".join(wanted) + "\n" and ran.returncode == 0:
        passed += 1
    else:
        faults.append(f"{page}: the snippet that begins with {lines[0]!r} prints\n{ran.stdout}{ran.stderr[-600:]}")


for page in (it for pattern in PAGES for it in sorted(glob.glob(pattern, root_dir=top))):
    shutil.rmtree(copy, ignore_errors=True)
    found = list(blocks((top / page).read_text(encoding="utf-8")))
    for number, (kind, lines) in enumerate(found):
        if kind == "python":
            run_snippet(page, lines, found[number + 1][1])
        elif kind is None:
            run_block(page, lines)
for line in sorted(untested):
    print(f"not tested: {line}")
print(f"pages: {passed} commands and snippets ended as the pages say")
if faults or not passed:
    sys.exit("\n".join(faults))
