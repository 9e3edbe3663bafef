#!/usr/bin/env python3
"""Makes the wheel of the package: for pip, by pyproject.toml, and for bindings/dist. Of the standard library alone.

    backend.py [--library LIBRARY] FOLDER

The shared library goes into the package: LIBRARY, or else the one that TEZGUMI_LIBRARY names, or that bindings/build made in
bindings/out. The wheel's tag says what that library needs of the system's C library. It is read from the library itself:
each version of a symbol that the dynamic linker is asked for, and each library. Equal files make equal bytes.
"""
import base64
import hashlib
import os
import re
import struct
import sys
import tomllib
import zipfile
from pathlib import Path

HERE = Path(__file__).resolve().parent
PACKAGES = ("tezgumi", "tezgumi_plot")
# Beside the modules a package has py.typed, and in web/ the parts of a page.
KINDS = {".py", ".js", ".css", ".html"}
# A tag older than this one is of no use: pip knows none. What newer systems promise to have, beside the C library's parts.
OLDEST = (2, 17)
SYSTEM = {"libc.so.6", "libm.so.6", "libpthread.so.0", "ld-linux-x86-64.so.2"}
# All files of a wheel have the earliest time that a zip archive can tell.
TIME = (1980, 1, 1, 0, 0, 0)


# What pip calls


def get_requires_for_build_wheel(config_settings=None):
    return []


def build_wheel(wheel_directory, config_settings=None, metadata_directory=None):
    """Writes the wheel into the folder, and returns its name."""
    library = found_library()
    tag = "py3-none-" + platform_of(library)
    version = own_version()
    files = package_files(library)
    info = f"tezgumi-{version}.dist-info"
    wheel = f"Wheel-Version: 1.0\nGenerator: tezgumi\nRoot-Is-Purelib: false\nTag: {tag}\n"
    files[f"{info}/METADATA"] = metadata(version).encode()
    files[f"{info}/WHEEL"] = wheel.encode()
    files[f"{info}/entry_points.txt"] = entry_points().encode()
    name = f"tezgumi-{version}-{tag}.whl"
    write_archive(Path(wheel_directory, name), files, info)
    return name


# What the wheel holds


def found_library():
    """The shared library that goes into the wheel."""
    named = os.environ.get("TEZGUMI_LIBRARY")
    path = Path(named) if named else HERE.parent / "out" / "lib" / "libtezgumi.so"
    if not path.is_file():
        sys.exit(f"there is no {path}: bindings/build makes the library, and TEZGUMI_LIBRARY may name another")
    return path


def own_version():
    text = (HERE / "tezgumi" / "version.py").read_text(encoding="utf-8")
    return re.search(r'^__version__ = "([0-9.]+)"$', text, re.M)[1]


def package_files(library):
    """The bytes of each file of the packages, by its name in the wheel."""
    paths = [path for package in PACKAGES for path in (HERE / package).rglob("*")]
    files = {str(path.relative_to(HERE)): path.read_bytes() for path in paths if path.suffix in KINDS or path.name == "py.typed"}
    files["tezgumi/libtezgumi.so"] = library.read_bytes()
    return files


def project():
    with open(HERE / "pyproject.toml", "rb") as file:
        return tomllib.load(file)["project"]


def metadata(version):
    """The text of METADATA, from what pyproject.toml says."""
    it = project()
    lines = ["Metadata-Version: 2.1", f"Name: {it['name']}", f"Version: {version}", f"Summary: {it['description']}"]
    lines += [f"Requires-Python: {it['requires-python']}", *(f"Classifier: {row}" for row in it["classifiers"])]
    lines += [f"Requires-Dist: {row}" for row in it["dependencies"]]
    for extra, rows in it["optional-dependencies"].items():
        lines += [f"Provides-Extra: {extra}", *(f'Requires-Dist: {row} ; extra == "{extra}"' for row in rows)]
    return "\n".join(lines) + "\n"


def entry_points():
    return "[console_scripts]\n" + "".join(f"{name} = {call}\n" for name, call in project()["scripts"].items())


def write_archive(path, files, info):
    """The files in order of name, and last the record of the checksum and the length of each."""
    record = f"{info}/RECORD"
    rows = [f"{name},sha256={checksum(data)},{len(data)}\n" for name, data in sorted(files.items())]
    with zipfile.ZipFile(path, "w", zipfile.ZIP_DEFLATED) as archive:
        for name, data in [*sorted(files.items()), (record, "".join([*rows, f"{record},,\n"]).encode())]:
            entry = zipfile.ZipInfo(name, TIME)
            entry.create_system = 3  # Unix, whose permissions follow
            entry.external_attr = (0o100755 if name.endswith(".so") else 0o100644) << 16
            entry.compress_type = zipfile.ZIP_DEFLATED
            archive.writestr(entry, data)


def checksum(data):
    return base64.urlsafe_b64encode(hashlib.sha256(data).digest()).rstrip(b"=").decode()


# What the library needs


def platform_of(library):
    """The platform's tag: manylinux of the newest version of the C library that the library asks for, and of OLDEST at least.

    It ends the process where the library needs more than a C library, or is none for x86-64.
    """
    needed, versions = needs(library.read_bytes(), library)
    if needed - SYSTEM:
        sys.exit(f"{library} needs {', '.join(sorted(needed - SYSTEM))}, which a wheel may not ask for")
    newest = OLDEST
    for version in sorted(versions):
        number = re.fullmatch(r"GLIBC_(\d+)\.(\d+)(\.\d+)?", version)
        if not number:
            sys.exit(f"{library} asks for {version}, which no tag promises")
        newest = max(newest, (int(number[1]), int(number[2])))
    return "manylinux_{}_{}_x86_64".format(*newest)


def needs(data, name):
    """The names of the libraries that an ELF file needs, and of the symbols' versions that it asks them for."""
    if data[:6] != b"\x7fELF\x02\x01" or struct.unpack_from("<H", data, 18)[0] != 62:
        sys.exit(f"{name} is no library for x86-64")
    start, = struct.unpack_from("<Q", data, 40)
    size, count = struct.unpack_from("<HH", data, 58)
    heads = [struct.unpack_from("<IIQQQQIIQQ", data, start + i * size) for i in range(count)]
    needed, versions = set(), set()
    for _, kind, _, _, offset, length, link, info, _, _ in heads:
        strings = heads[link][4] if link < count else 0
        if kind == 6:  # the dynamic section: pairs of a tag, of which 1 names a library, and a value
            pairs = struct.iter_unpack("<QQ", data[offset:offset + length])
            needed |= {text_at(data, strings + value) for tag, value in pairs if tag == 1}
        elif kind == 0x6FFFFFFE:  # versions that are asked for: info libraries, each with a chain of versions
            versions |= asked_versions(data, offset, info, strings)
    return needed, versions


def asked_versions(data, at, count, strings):
    found = set()
    for _ in range(count):
        _, many, _, first, following = struct.unpack_from("<HHIII", data, at)
        row = at + first
        for _ in range(many):
            _, _, _, name, step = struct.unpack_from("<IHHII", data, row)
            found.add(text_at(data, strings + name))
            row += step
        at += following
    return found


def text_at(data, at):
    return data[at:data.index(b"\0", at)].decode()


if __name__ == "__main__":
    words = sys.argv[1:]
    if words[:1] == ["--library"] and len(words) == 3:
        os.environ["TEZGUMI_LIBRARY"], words = words[1], words[2:]
    if len(words) != 1 or words[0].startswith("-"):
        sys.exit(__doc__)
    print(build_wheel(words[0]))
