"""Where things stand: in a repository, or where the program was installed."""
import os
import signal
import subprocess
import sys

TOOLS = os.path.dirname(os.path.dirname(os.path.abspath(__file__)))
TOP = os.path.dirname(TOOLS)
IN_REPOSITORY = os.path.exists(f"{TOP}/crates.txt")
HELP = f"{TOP}/docs/help.txt" if IN_REPOSITORY else f"{TOOLS}/help.txt"
VERSION = f"{TOP}/VERSION" if IN_REPOSITORY else f"{TOOLS}/VERSION"
EXPLAIN = f"{TOOLS}/explain/explain.py"
# The wrapper's status where the program can't be built.
NOT_BUILT = 70


def say(text):
    """Tells a line of the wrapper's own."""
    print(f"saber: {text}", file=sys.stderr, flush=True)


def wants_hints():
    """Whether a person reads standard error."""
    return os.environ.get("SABER_HINTS") == "1" or os.isatty(2)


def text_of(name):
    with open(name, encoding="utf-8") as file:
        return file.read()


def explain(status, note, words):
    """Has a note explained, where a person reads it and there is what explains."""
    if wants_hints() and os.path.exists(EXPLAIN):
        command = [sys.executable, "-B", EXPLAIN, str(status), note[:100_000], *words]
        subprocess.run(command, stdin=subprocess.DEVNULL, stdout=subprocess.DEVNULL, check=False)


def end_by(number):
    """Ends by a signal, as what was called did."""
    signal.signal(number, signal.SIG_DFL)
    os.kill(os.getpid(), number)


def build(main):
    """Calls what builds, and tells in a line why it couldn't."""
    try:
        return main()
    except KeyboardInterrupt:
        end_by(signal.SIGINT)
    except OSError as error:
        if error.filename == "rt":
            say("the toolchain is missing: there is no command rt on the PATH")
        else:
            say(f"the program can't be built: {error.filename or TOP}: {error.strerror}")
    return NOT_BUILT
