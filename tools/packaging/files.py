"""The list of what is handed on: each file's path below a prefix, its bytes, and whether it is a program."""
import os

import editors
import pages
import places
import programs

# The repository's folders of which all files are handed on, and where.
FOLDERS = [
    ("tools/explain", "share/saber/explain"),
    ("tools/rows", "share/saber/rows"),
    ("tools/wrapper", "share/saber/wrapper"),
    ("docs", "share/doc/saber/docs"),
    ("examples", "share/doc/saber/examples"),
]
# Single files of the repository.
FILES = [
    ("saber", "bin/saber"),
    ("VERSION", "share/saber/VERSION"),
    ("docs/help.txt", "share/saber/help.txt"),
    ("README.md", "share/doc/saber/README.md"),
]


def made():
    """The files that are made of others."""
    return {
        "share/man/man1/saber.1": pages.saber(),
        "share/man/man7/saber-query.7": pages.saber_query(),
        "share/bash-completion/completions/saber": editors.completion(),
        "share/vim/vimfiles/syntax/saber.vim": editors.vim_syntax(),
        "share/vim/vimfiles/ftdetect/saber.vim": editors.VIM_DETECT,
        "share/saber/editors/saber.tmLanguage.json": editors.textmate(),
    }


def bytes_of(name):
    with open(name, "rb") as file:
        return file.read()


def every(program):
    """All files with the given program, in order of their paths."""
    found = {path: text.encode() for path, text in made().items()}
    found["share/saber/BUILD"] = programs.told(program).encode()
    found["libexec/saber/saber"] = bytes_of(program)
    runs = {"libexec/saber/saber"}
    there = FILES + [(name, f"{to}{name.removeprefix(folder)}") for folder, to in FOLDERS for name in places.tracked(folder)]
    for name, path in there:
        found[path] = bytes_of(f"{places.TOP}/{name}")
        if os.access(f"{places.TOP}/{name}", os.X_OK):
            runs.add(path)
    return [(path, found[path], path in runs) for path in sorted(found)]
