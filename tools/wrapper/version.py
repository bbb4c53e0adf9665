"""version.py: prints the version, which program runs, what it was built with, and of which commit."""
import hashlib
import os
import sys

import places


def told(build, program):
    """What is said of a program by its file BUILD."""
    how = "proved" if build.get("proved") == "yes" else "compiled without proof"
    parts = [how, *[it for it in (build.get("kit"), f"commit {build['commit']}" if "commit" in build else "") if it]]
    wanted = build.get("hash")
    if wanted and wanted != hash_of(program):
        parts = [f"unknown: the program isn't the one that was built ({', '.join(parts)})"]
    return ", ".join(parts)


def hash_of(name):
    try:
        with open(name, "rb") as file:
            return hashlib.sha256(file.read()).hexdigest()
    except OSError:
        return ""


def of_repository():
    """What runs at the next command."""
    import builds

    slot = builds.find(builds.stamp(), builds.kit())
    if slot:
        return told(builds.read(f"{builds.TARGET}/{slot}"), f"{builds.TARGET}/{slot}/saber")
    if any(os.path.exists(f"{builds.TARGET}/{it}/BUILD") for it in builds.SLOTS):
        return "not built since the sources or the toolchain changed"
    return "not built yet"


def of_installation():
    try:
        lines = places.text_of(f"{places.TOOLS}/BUILD").splitlines()
    except OSError:
        return ""
    program = os.path.normpath(f"{places.TOOLS}/../../libexec/saber/saber")
    return told(dict(line.split(": ", 1) for line in lines if ": " in line), program)


def main():
    version = places.text_of(places.VERSION).strip()
    what = of_repository() if places.IN_REPOSITORY else of_installation()
    print(f"saber {version}" + (f" ({what})" if what else ""))


if __name__ == "__main__":
    sys.exit(main())
