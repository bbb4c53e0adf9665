#!/usr/bin/env python3
"""documents.py [--program PATH], run at the top of the tree: whether each console example of README.md and docs/ comes out as it is told.

Without PATH it looks whether each is a case of documents.cases, with what comes of it: the gate tries the cases; this compares the
documents with them, `cat` and `head` of a file with the file, and `cat` of what `many` wrote with the parts of the case before. With
PATH it calls each line itself, in a copy of the tree whose program is PATH, but those of the toolchain and those that follow a file
for ever; a block is a session, from the top of the tree on. It prints a line for each example that is told otherwise, then how many
lines it looked at, and ends with status 1 where one is told otherwise.
"""
import argparse, glob, os, re, shutil, subprocess, sys, tempfile

def fields():
    """The fields of the file of cases: what stands before the colon, and the lines of its text."""
    found = []
    for line in open("crates/saber_cases/data/documents.cases", encoding="utf-8").read().splitlines():
        if line.startswith("  "):
            found[-1][1].append(line[2:])
        elif line and not line.startswith("#"):
            head, _, rest = line.partition(":")
            found.append((head, [rest[1:]] if rest else []))
    return found

def said(lines, texts):
    """What these lines say, where they have no escape but names of texts and a last backslash."""
    lines = [re.sub(r"\\<([^>]*)>$", lambda it: texts[it[1]] + "\\", line) for line in lines]
    return "".join(line[:-1] if line.endswith("\\") else line + "\n" for line in lines)

def answers():
    """What comes of each call, by its words: the answer and the note. And what comes into each file, by its name."""
    texts, told, words = {}, {}, ""
    for head, lines in fields():
        if head.startswith("text "):
            texts[head[5:]] = said(lines, texts)
        elif head == "words":
            words = lines[0]
            told[words] = ""
        elif head in ("out", "note"):
            told[words] += said(lines, texts)
        elif head.startswith("out of "):
            told[words.split()[int(head[7:]) + 2] + ".out"] = said(lines, texts)
    return told

def sessions():
    """The console blocks of all documents: the document, and the commands with the text below each."""
    for document in ["README.md", *sorted(glob.glob("docs/*.md"))]:
        text = open(document, encoding="utf-8").read()
        for block in re.findall(r"^```console\n(.*?)^```", text, re.M | re.S):
            yield document, [part.partition("\n")[::2] for part in re.split(r"^\$ ", block, flags=re.M)[1:]]

def by_cases(told, command):
    """What a command says by the cases and the files of examples: ? where there is no case, and None of other commands."""
    command = command.removeprefix("cd examples && ")
    if re.match(r"\.\.?/saber (run|many|chain|check|demo)\b[^|<>&;]*$", command):
        return told.get(command, "?")
    if re.match(r"cat( [\w/.]+\.out)+$", command):
        return "".join(told.get(name, "?") for name in command.split()[1:])
    if re.match(r"(cat|head -\d+) [\w/. ]+$", command):
        return subprocess.run(command.split(), capture_output=True, text=True).stdout
    return None

def tree_with(program, folder):
    """Makes a copy of the tree whose program is this one, as if built after the last change of its sources."""
    for name in ("README.md", "VERSION", "crates", "crates.txt", "docs", "tools"):
        os.symlink(os.path.abspath(name), f"{folder}/{name}")
    shutil.copytree("examples", f"{folder}/examples", ignore=shutil.ignore_patterns("*.out"))
    shutil.copy("saber", f"{folder}/saber")
    os.makedirs(f"{folder}/target/current")
    os.symlink(os.path.abspath(program), f"{folder}/target/current/saber")
    build = f"{folder}/target/current/BUILD"
    open(build, "w").close()
    later = os.stat(build).st_mtime + 86_400
    os.utime(build, (later, later))

def by_program(session, top):
    """What each command of a block says when it is called, or None of those that aren't."""
    folder = top
    for command, _ in session:
        if re.match(r"rt\b|.*\btail -[fF]", command):
            yield None
            continue
        script = f"cd {folder!r}; {{ {command}\n}} 2>&1; pwd >&3"
        reading, writing = os.pipe()
        ran = subprocess.run(["bash", "-c", f"exec 3>&{writing}; {script}"], stdin=subprocess.DEVNULL, stdout=subprocess.PIPE, pass_fds=[writing], text=True, timeout=60)
        os.close(writing)
        folder = os.read(reading, 4096).decode().rstrip("\n") or folder
        os.close(reading)
        yield ran.stdout

def said_otherwise(program):
    """The examples that say something else than is told, and how many were looked at."""
    wrong, looked, told = [], 0, answers()
    for document, session in sessions():
        with tempfile.TemporaryDirectory(prefix="documents-") as folder:
            if program:
                tree_with(program, folder)
            found = by_program(session, folder) if program else [by_cases(told, command) for command, _ in session]
            for (command, below), said in zip(session, found):
                looked += said is not None
                if said not in (None, below):
                    wrong.append(f"{document}: {command}: {'no case' if said == '?' else 'told otherwise'}")
    return wrong, looked

def main():
    words = argparse.ArgumentParser(description=__doc__, formatter_class=argparse.RawDescriptionHelpFormatter)
    words.add_argument("--program", metavar="PATH")
    program = words.parse_args().program
    wrong, looked = said_otherwise(program)
    print("".join(f"{it}\n" for it in wrong), end="")
    print(f"{looked} examples, {len(wrong)} told otherwise")
    return 1 if wrong else 0

if __name__ == "__main__":
    sys.exit(main())
