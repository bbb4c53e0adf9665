"""The repository, and what git and the system say of it."""
import functools
import os
import subprocess

TOOLS = os.path.dirname(os.path.dirname(os.path.abspath(__file__)))
TOP = os.path.dirname(TOOLS)


def text_of(name):
    with open(f"{TOP}/{name}", encoding="utf-8") as file:
        return file.read()


def said(*words):
    """What a command prints, or nothing where it fails or is not there."""
    try:
        return subprocess.check_output(words, cwd=TOP, text=True, stdin=subprocess.DEVNULL, stderr=subprocess.DEVNULL).strip()
    except (OSError, subprocess.CalledProcessError):
        return ""


def version():
    return text_of("VERSION").strip()


@functools.cache
def listed():
    """The files that git has of the repository; none where it is none of git's."""
    if said("git", "rev-parse", "--show-prefix"):
        return []
    return [it for it in said("git", "ls-files", "-z").split("\0") if it and os.path.exists(f"{TOP}/{it}")]


def tracked(*folders):
    """The files of these folders that are the repository's; outside of git all that are not made by a run."""
    found = [it for it in listed() if it in folders or it.startswith(tuple(f"{folder}/" for folder in folders))]
    if listed():
        return sorted(found)
    for folder in folders:
        for root, inner, names in os.walk(f"{TOP}/{folder}"):
            inner[:] = [it for it in inner if it != "__pycache__"]
            found += [os.path.relpath(f"{root}/{name}", TOP) for name in names if not name.endswith((".out", ".new"))]
    return sorted(found)
