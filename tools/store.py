"""What is proved, kept outside the checkout: another checkout of the same files takes it, and proves nothing again. A state of a
crate goes by the sum of all that it was made from, and the last two states of each crate are kept."""
import contextlib
import fcntl
import os
import shutil
from pathlib import Path

STATES = 2


def folder():
    """Where the states lie, in the user's folder of caches, if there is one."""
    places = [Path(os.environ.get("XDG_CACHE_HOME", "")), Path(os.path.expanduser("~/.cache"))]
    return next((place / "dollar" for place in places if place.is_absolute()), None)


@contextlib.contextmanager
def locked(states):
    """Holds the lock of the states of a crate."""
    states.mkdir(parents=True, exist_ok=True)
    with open(states / "lock", "w") as lock:
        fcntl.flock(lock, fcntl.LOCK_EX)
        yield


def linked(source, target):
    """On one disk both are the same file, which takes no room a second time: the toolchain writes none again, it makes a new one."""
    try:
        os.link(source, target)
    except OSError:
        shutil.copy2(source, target)


def removed(place):
    if place.is_dir():
        shutil.rmtree(place)
    place.unlink(missing_ok=True)


def copied(source, target):
    """Copies a library, or the program, whose time is set later, so it is no link. It is there once it is whole."""
    target.parent.mkdir(parents=True, exist_ok=True)
    part = target.with_name(f".{target.name}")
    removed(part)
    try:
        if source.is_dir():
            shutil.copytree(source, part, copy_function=linked)
        else:
            shutil.copy2(source, part)
        removed(target)
        os.rename(part, target)
    finally:
        removed(part)


def place(name, state):
    """Where a state of a crate is kept, or would be."""
    return folder() and folder() / name / state


def has(name, state):
    return place(name, state) is not None and os.path.exists(place(name, state))


def take(name, state, target):
    """Takes a state of a crate, and tells whether it could."""
    kept = place(name, state)
    with contextlib.suppress(OSError), locked(kept.parent):
        copied(kept, target)
        os.utime(kept)
        return True
    return False


def keep(name, state, source):
    """Keeps a state of a crate, if it can be written, and drops those that were kept or taken before the last two."""
    kept = place(name, state)
    if not kept:
        return
    with contextlib.suppress(OSError), locked(kept.parent):
        if not kept.exists():
            copied(source, kept)
        os.utime(kept)
        states = {*kept.parent.iterdir()} - {kept.parent / "lock"}
        for old in sorted(states, key=lambda state: -state.stat().st_mtime_ns)[STATES:]:
            removed(old)
