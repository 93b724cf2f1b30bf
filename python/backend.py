"""Builds the package for pip from the standard library alone: so `pip install ./python` asks no network for anything.

pip calls the functions below (PEP 517, and PEP 660 for `pip install -e`). Equal files make an equal wheel, byte for byte."""

import base64
import gzip
import hashlib
import io
import os
import re
import subprocess
import tarfile
import zipfile
from pathlib import Path

HERE = Path(__file__).resolve().parent
VERSION = re.search(r'^__version__ = "(.+)"$', (HERE / "dollar" / "__init__.py").read_text(encoding="utf-8"), re.MULTILINE)[1]
NAME = "dollar-" + VERSION
# Python has no reader of this file before 3.11, and what is asked for here stands in it in these forms alone.
PROJECT = (HERE / "pyproject.toml").read_text(encoding="utf-8")
ABOUT = """
The vertices of a graph hold dollars or owe them; a vertex lends by sending a dollar along each of its edges. The program
`dollar` tells whether all debts can be cleared and how, and tests ranks, with proved answers. This package asks it from Python.

A wheel that has the program in it needs Linux on a processor with SSE4.2 and POPCNT (x86-64-v2, any since 2013). No licence is
given yet; share/doc/dollar/copyright has those of the libraries in the program.
"""
WHEEL = """Wheel-Version: 1.0
Generator: backend.py of dollar
Root-Is-Purelib: %s
"""


def field(name):
    """A text of pyproject.toml."""
    return re.search(r'^%s = (?:\{ text = )?"(.+?)"' % re.escape(name), PROJECT, re.MULTILINE)[1]


def texts(name):
    """A list of texts of pyproject.toml."""
    return re.findall(r'"(.+?)"', re.search(r"^%s = \[(.*?)\]" % re.escape(name), PROJECT, re.MULTILINE | re.DOTALL)[1])


METADATA = "".join("%s: %s\n" % line for line in [
    ("Metadata-Version", "2.1"), ("Name", field("name")), ("Version", VERSION), ("Summary", field("description")), ("License", field("license")),
    ("Keywords", ",".join(texts("keywords"))), *(("Classifier", each) for each in texts("classifiers")),
    ("Requires-Python", field("requires-python")), ("Description-Content-Type", "text/plain")]) + ABOUT
COMMANDS = "[console_scripts]\ndollar-board = %s\n" % field("dollar-board")


def files_in(folder):
    """The files of a folder: of a checkout those that git knows, and nothing else that happens to lie there."""
    try:
        listed = subprocess.run(["git", "-C", folder, "ls-files", "-z"], stdout=subprocess.PIPE, stderr=subprocess.DEVNULL, check=True).stdout
    except (OSError, subprocess.CalledProcessError):
        listed = b""
    found = [folder / os.fsdecode(name) for name in listed.split(b"\0") if name] or folder.rglob("*")
    return sorted(file for file in found if file.is_file() and file.suffix != ".pyc"
                  and not any(part.startswith(".") for part in file.relative_to(folder).parts))


def sources():
    """The files of the package, by the names that they have in it, among them the tables of the examples."""
    files = {file.relative_to(HERE).as_posix(): file.read_bytes() for file in files_in(HERE / "dollar")}
    tables = HERE.parent / "examples"
    examples = [file for file in files_in(tables) if file.suffix == ".json"] if tables.is_dir() else []
    return {**files, **{"dollar/examples/" + file.name: file.read_bytes() for file in examples}}


def sdist():
    """The same with what pip needs to make the package of it."""
    return {**sources(), **{name: (HERE / name).read_bytes() for name in ("pyproject.toml", "backend.py")}}


def record_of(files):
    """The list of the files of a wheel, with their hashes."""
    rows = []
    for name, content in files.items():
        digest = base64.urlsafe_b64encode(hashlib.sha256(content).digest()).rstrip(b"=").decode()
        rows.append("%s,sha256=%s,%d\n" % (name, digest, len(content)))
    return "".join(rows)


def tags_of(tag):
    """The lines for a tag, which may have several platforms with a dot between two."""
    *first, platforms = tag.split("-")
    return "".join("Tag: %s\n" % "-".join([*first, each]) for each in platforms.split("."))


def wheel_of(folder, files, tag="py3-none-any"):
    """Writes a wheel with these files into a folder, and tells its name. Scripts can be run."""
    info = NAME + ".dist-info/"
    files = dict(files, **{info + "METADATA": METADATA.encode(), info + "entry_points.txt": COMMANDS.encode(),
                           info + "WHEEL": (WHEEL % str(tag.endswith("any")).lower() + tags_of(tag)).encode()})
    files[info + "RECORD"] = (record_of(files) + info + "RECORD,,\n").encode()
    name = "%s-%s.whl" % (NAME, tag)
    with zipfile.ZipFile(Path(folder) / name, "w", zipfile.ZIP_DEFLATED) as wheel:
        for path, content in files.items():
            entry = zipfile.ZipInfo(path)
            can_run = "/scripts/" in path or content.startswith(b"#!")
            entry.compress_type, entry.external_attr = zipfile.ZIP_DEFLATED, (0o100755 if can_run else 0o100644) << 16
            wheel.writestr(entry, content)
    return name


def build_wheel(wheel_directory, config_settings=None, metadata_directory=None):
    return wheel_of(wheel_directory, sources())


def build_editable(wheel_directory, config_settings=None, metadata_directory=None):
    return wheel_of(wheel_directory, {"dollar.pth": (str(HERE) + "\n").encode()})


def build_sdist(sdist_directory, config_settings=None):
    files = {**sdist(), "PKG-INFO": METADATA.encode()}
    with open(Path(sdist_directory) / (NAME + ".tar.gz"), "wb") as file, gzip.GzipFile("", "wb", 9, file, mtime=0) as packed:
        with tarfile.open(fileobj=packed, mode="w", format=tarfile.PAX_FORMAT) as archive:
            for name, content in files.items():
                entry = tarfile.TarInfo(NAME + "/" + name)
                entry.size, entry.mode = len(content), 0o644
                archive.addfile(entry, io.BytesIO(content))
    return NAME + ".tar.gz"
