#!/usr/bin/env python3
"""Tests of what is handed on (tools/packaging): archives, an installation and its pages, and what a shell and editors are told.

The environment variable SABER_PROGRAM names the program that is packed; without it all is skipped.
"""
import gzip
import hashlib
import io
import json
import os
import re
import shutil
import subprocess
import sys
import tarfile
import tempfile
import unittest

sys.dont_write_bytecode = True
HERE = os.path.dirname(os.path.realpath(__file__))
TOP = os.path.dirname(os.path.dirname(HERE))
PROGRAM = os.environ.get("SABER_PROGRAM", "")
sys.path.insert(0, f"{TOP}/tools/packaging")
import editors
import files
import pages
import places
import programs

WITHOUT_PROGRAM = "SABER_PROGRAM names no program: nothing is packed"


def read(name):
    with open(name, encoding="utf-8") as file:
        return file.read()


def without(*commands):
    """Skips a test where one of the commands isn't there."""
    missing = [it for it in commands if not shutil.which(it)]
    return unittest.skipIf(missing, f"no {' '.join(missing)} here")


def said(*words, **how):
    ran = subprocess.run(words, stdin=subprocess.DEVNULL, capture_output=True, text=True, check=False, **how)
    if ran.returncode:
        raise AssertionError(f"{words}: {ran.returncode}\n{ran.stdout}{ran.stderr}")
    return ran.stdout


class Packed(unittest.TestCase):
    """A folder with the archives of the program."""

    @classmethod
    def setUpClass(cls):
        folder = tempfile.TemporaryDirectory(prefix="saber-package-")
        cls.addClassCleanup(folder.cleanup)
        cls.folder = folder.name
        if not PROGRAM:
            return
        shutil.copy(PROGRAM, f"{cls.folder}/program")
        cls.deb, cls.tar, cls.prefix = f"{cls.folder}/saber.deb", f"{cls.folder}/saber.tar.gz", f"{cls.folder}/prefix"
        cls.pack("deb", cls.deb)
        cls.pack("tar", cls.tar)
        said(f"{TOP}/tools/install", cls.prefix, f"{cls.folder}/program")

    @classmethod
    def pack(cls, kind, out, **environment):
        return said(f"{TOP}/tools/package", kind, out, "--program", f"{cls.folder}/program", env={**os.environ, **environment})


def installed(folder):
    return {os.path.relpath(f"{root}/{name}", folder) for root, _, names in os.walk(folder) for name in names}


@unittest.skipUnless(PROGRAM, WITHOUT_PROGRAM)
class Archives(Packed):
    def test_the_same_bytes_twice(self):
        for kind, first in [("deb", self.deb), ("tar", self.tar)]:
            again = f"{self.folder}/again.{kind}"
            self.pack(kind, again)
            with open(first, "rb") as one, open(again, "rb") as other:
                self.assertEqual(one.read(), other.read())

    def test_the_time_that_is_asked_for(self):
        told = []
        for when in ("1000000000", "1000000001"):
            self.pack("deb", f"{self.folder}/at", SOURCE_DATE_EPOCH=when)
            with open(f"{self.folder}/at", "rb") as file:
                data = file.read()
            told.append(data)
            self.assertIn(f"debian-binary   {when}  0     0     100644  4         `\n2.0\n".encode(), data)
        self.assertNotEqual(*told)

    def test_one_list_for_all(self):
        wanted = {path for path, _, _ in files.every(f"{self.folder}/program")}
        self.assertEqual(installed(self.prefix), wanted)
        with tarfile.open(self.tar) as archive:
            found = {it.name.partition("/")[2] for it in archive if it.isfile()}
        self.assertEqual(found, wanted)
        with open(self.deb, "rb") as file:
            data = file.read()
        begin = data.index(b"data.tar.gz")
        size = int(data[begin + 48:begin + 58])
        with tarfile.open(fileobj=io.BytesIO(gzip.decompress(data[begin + 60:begin + 60 + size]))) as archive:
            self.assertEqual({it.name.removeprefix("./usr/") for it in archive if it.isfile()}, wanted)
            self.assertEqual({(it.uid, it.gid) for it in archive}, {(0, 0)})
            self.assertEqual({it.mode for it in archive}, {0o755, 0o644})

    def test_only_what_belongs_to_the_repository(self):
        stray = f"{TOP}/examples/stray.cql.out"
        self.addCleanup(lambda: os.path.exists(stray) and os.remove(stray))
        with open(stray, "w", encoding="utf-8") as file:
            file.write("0,1\n")
        paths = [path for path, _, _ in files.every(f"{self.folder}/program")]
        self.assertFalse([it for it in paths if it.endswith((".out", ".pyc", ".new"))])
        self.assertIn("share/doc/saber/examples/meter_readings.csv", paths)

    def test_the_file_build(self):
        lines = read(f"{self.prefix}/share/saber/BUILD").splitlines()
        told = dict(line.split(": ", 1) for line in lines)
        with open(PROGRAM, "rb") as file:
            self.assertEqual(told["hash"], hashlib.sha256(file.read()).hexdigest())
        self.assertEqual((told["version"], told["proved"], told["commit"]), (places.version(), "no", "unknown"))

    def test_a_file_build_beside_the_program(self):
        folder = f"{self.folder}/built"
        os.makedirs(folder)
        shutil.copy(PROGRAM, f"{folder}/saber")
        told = {"version": "0", "proved": "yes", "kit": "kit 1", "commit": "abc", "hash": programs.hash_of(PROGRAM), "sources": "def"}
        for changed, proved in [({}, "yes"), ({"hash": "0" * 64}, "no")]:
            with open(f"{folder}/BUILD", "w", encoding="utf-8") as file:
                file.writelines(f"{key}: {value}\n" for key, value in {**told, **changed}.items())
            self.assertIn(f"proved: {proved}\n", programs.told(f"{folder}/saber"))

    def test_no_program(self):
        called = [f"{TOP}/tools/package", "deb", f"{self.folder}/none", "--program", "/nowhere"]
        ran = subprocess.run(called, capture_output=True, text=True, check=False)
        self.assertEqual((ran.returncode, ran.stderr), (1, "package: there is no program /nowhere\n"))

    def test_a_prefix_without_permission(self):
        closed = f"{self.folder}/file"
        with open(closed, "w", encoding="utf-8"):
            pass
        ran = subprocess.run([f"{TOP}/tools/install", f"{closed}/prefix", f"{self.folder}/program"], capture_output=True, text=True, check=False)
        self.assertEqual(ran.returncode, 1)
        self.assertRegex(ran.stderr, r"^package: .*: Not a directory\n$")

    @without("objdump")
    def test_the_c_library_that_is_needed(self):
        symbols = said("objdump", "-T", PROGRAM)
        versions = [tuple(map(int, it.split("."))) for it in re.findall(r"GLIBC_([\d.]+)", symbols)]
        with open(PROGRAM, "rb") as file:
            self.assertEqual(programs.needs(file.read()), ".".join(map(str, max(versions))))


@unittest.skipUnless(PROGRAM, WITHOUT_PROGRAM)
class Debian(Packed):
    @without("dpkg-deb")
    def test_what_dpkg_says(self):
        told = said("dpkg-deb", "-I", self.deb)
        for line in [f"Version: {places.version()}", "Depends: libc6 (>= 2.", ", python3"]:
            self.assertIn(line, told)
        self.assertIn("-rwxr-xr-x root/root", next(it for it in said("dpkg-deb", "-c", self.deb).splitlines() if it.endswith("./usr/bin/saber")))

    @without("dpkg-deb", "md5sum")
    def test_an_installation_of_it(self):
        root = f"{self.folder}/root"
        said("dpkg-deb", "-x", self.deb, root)
        said("dpkg-deb", "-e", self.deb, f"{self.folder}/control")
        said("md5sum", "--quiet", "-c", f"{self.folder}/control/md5sums", cwd=root)
        self.try_examples(f"{root}/usr")

    def test_an_installation_of_files(self):
        self.try_examples(self.prefix)

    def try_examples(self, prefix):
        if "libexec/saber" not in read(f"{prefix}/bin/saber"):
            self.skipTest("the wrapper of this tree doesn't run installed")
        documents = f"{prefix}/share/doc/saber"
        found = re.findall(r"^\$ \./(saber run .*)\n((?:[0-9,-]+\n)+)", read(f"{documents}/docs/LANGUAGE.md"), re.M)
        self.assertGreater(len(found), 3)
        # Nothing of the repository is read, and nothing below the prefix is written.
        before = installed(prefix)
        for words, answer in found:
            self.assertEqual(said(f"{prefix}/bin/saber", *words.split()[1:], cwd=documents), answer)
        self.assertIn(places.version(), said(f"{prefix}/bin/saber", "--version", cwd="/"))
        self.assertTrue(said(f"{prefix}/bin/saber", "help", cwd="/").startswith("Usage"))
        ran = subprocess.run(
            [f"{prefix}/bin/saber", "run", "README.md", "docs/help.txt"], cwd=documents, env={**os.environ, "SABER_HINTS": "1"},
            stdin=subprocess.DEVNULL, capture_output=True, text=True, check=False)
        self.assertEqual(ran.returncode, 3)
        self.assertIn("  README.md, line 1, column 1:\n", ran.stderr)
        self.assertEqual(installed(prefix), before)


class Pages(unittest.TestCase):
    def test_sections(self):
        page = pages.saber()
        for section in ["NAME", "SYNOPSIS", "COMMANDS", "OPTIONS", "EXAMPLES", "EXIT STATUS", "ENVIRONMENT", "SEE ALSO"]:
            self.assertIn(f"\n.SH {section}\n", page)
        for status in "02345678":
            self.assertIn(f"\n.B {status}\n", page)
        for command in pages.SHOWN:
            self.assertRegex(page, rf"(?m)^\$ (cd examples && )?saber {command} ")

    def test_each_option_is_told(self):
        page = pages.saber()
        for option in re.findall(r"^  (--[a-z-]+)", read(f"{TOP}/docs/help.txt"), re.M):
            self.assertIn(option.replace("-", "\\-"), page)

    def test_the_grammar_is_there(self):
        page = pages.saber_query()
        self.assertIn(".SH GRAMMAR AND LIMITS\n", page)
        for line in editors.grammar.GRAMMAR.splitlines():
            self.assertIn(line.replace("-", "\\-"), page)

    @without("groff")
    def test_they_are_set_without_a_warning(self):
        with tempfile.TemporaryDirectory() as folder:
            for name, page in [("saber.1", pages.saber()), ("saber-query.7", pages.saber_query())]:
                with open(f"{folder}/{name}", "w", encoding="utf-8") as file:
                    file.write(page)
                ran = subprocess.run(["groff", "-Kutf8", "-man", "-ww", "-Tutf8", f"{folder}/{name}"], capture_output=True, text=True, check=False)
                self.assertEqual((ran.returncode, ran.stderr), (0, ""))
        self.assertNotIn("`", pages.saber_query())


class Editors(unittest.TestCase):
    @without("bash")
    def test_completion(self):
        with tempfile.NamedTemporaryFile("w", suffix=".bash") as file:
            file.write(editors.completion())
            file.flush()
            script = 'source "$0"; COMP_WORDS=("$@"); COMP_CWORD=$(($# - 1)); _saber; printf "%s\\n" "${COMPREPLY[@]}"'
            for words, wanted in [
                (["saber", ""], [*editors.COMMANDS, "--version"]),
                (["saber", "ch"], ["chain", "check"]),
                (["saber", "run", "q", "l", "--t"], ["--task", "--threads"]),
                (["saber", "chain", "--f"], [""]),
                (["saber", "many", "--f"], ["--final"]),
                (["saber", "run", "--task", "r"], [""]),
                (["saber", "help", "de"], ["demo"]),
                (["saber", "check", "READ"], ["README.md"]),
            ]:
                with self.subTest(words):
                    self.assertEqual(said("bash", "-c", script, file.name, *words, cwd=TOP).splitlines() or [""], wanted)

    def test_each_option_is_completed(self):
        text = editors.completion()
        for option in re.findall(r"^  (--[a-z-]+)", read(f"{TOP}/docs/help.txt"), re.M):
            self.assertIn(option, text)

    def test_each_keyword_is_known(self):
        found = set(re.findall(r"\b[A-Z]{2,}\b", editors.vim_syntax()))
        self.assertEqual(found, editors.grammar.KEYWORDS)
        rules = json.loads(editors.textmate())["patterns"]
        for keyword in editors.grammar.KEYWORDS:
            self.assertTrue(any(re.fullmatch(it["match"], keyword.lower()) for it in rules), keyword)

    @without("vim")
    def test_vim_takes_it(self):
        with tempfile.TemporaryDirectory() as folder:
            os.makedirs(f"{folder}/syntax")
            os.makedirs(f"{folder}/ftdetect")
            for name, text in [("syntax/saber.vim", editors.vim_syntax()), ("ftdetect/saber.vim", editors.VIM_DETECT)]:
                with open(f"{folder}/{name}", "w", encoding="utf-8") as file:
                    file.write(text)
            shutil.copy(f"{TOP}/examples/watts_of_each_meter.cql", f"{folder}/a.cql")
            asked = "silent! redir! > said | echo &filetype synIDattr(synID(2, 1, 0), 'name') | redir END | quit"
            runtime = f"set runtimepath^={folder} | filetype on | syntax on"
            ran = subprocess.run(
                ["vim", "-u", "NONE", "-N", "-i", "NONE", "-es", "--cmd", runtime, "a.cql", "-c", asked], cwd=folder, timeout=30,
                stdin=subprocess.DEVNULL, capture_output=True, check=False, env={**os.environ, "TERM": "dumb"})
            if not os.path.exists(f"{folder}/said"):
                self.skipTest(f"this vim can't be asked: status {ran.returncode}")
            self.assertEqual(read(f"{folder}/said").split(), ["saber", "saberStatement"])


class Ignored(unittest.TestCase):
    @without("git")
    def test_no_file_of_the_repository_is_hidden(self):
        ran = subprocess.run(["git", "ls-files", "-i", "-c", "--exclude-standard"], cwd=TOP, capture_output=True, text=True, check=False)
        if ran.returncode:
            self.skipTest("this tree is none of git's")
        self.assertEqual(ran.stdout, "")


if __name__ == "__main__":
    unittest.main()
