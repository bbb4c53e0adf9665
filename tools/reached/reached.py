#!/usr/bin/env python3
"""reached.py TREE OUT [WORD]: which public calls the cases of `saber_cases` reach, file by file.

A call is listed if its answer names want of memory, or, with WORD, if its name or its crate's has that in it. The program of
`tools/unproved` is built with a byte for each function, which the function sets as it begins; gdb reads these bytes as the program
ends. Takes three minutes and 3 GB, and leaves OUT and OUT.ll. A function that the program doesn't have is called by nothing in it.
"""
import glob, os, re, subprocess, sys
HERE = os.path.dirname(os.path.abspath(__file__))
KIT = os.path.dirname(subprocess.check_output(["rt", "doc"], text=True).strip())
FLAGS = f"""--target=x86_64-unknown-linux-gnu --sysroot={KIT}/toolchain -march=x86-64 -ffunction-sections -fdata-sections --no-default-config
-no-canonical-prefixes -fno-crash-diagnostics -fPIE -O1 -Xclang -disable-llvm-passes""".split()
LACK = r"NoMemory|AllocError|QueryFault|WordsFault|OpenFault|CreateFault|WriteFault"
ABOVE = ("saber_trials", "saber_cases", "saber_edge_tests")


def marked(source, target):
    """Writes the module with a byte for each function of ours, all instances of one together, and gives their names."""
    names, here = {}, None
    with open(source, errors="surrogateescape") as lines, open(target, "w", errors="surrogateescape") as out:
        for line in lines:
            is_label = re.match(r"[\w.$\"-]+:", line)
            if here is not None and not is_label:
                out.write(f"  store i8 1, ptr getelementptr (i8, ptr @saber_reached, i64 {here})\n")
                here = None
            out.write(line)
            found = re.search(r'@"?(saber_[^"(]*?)(?:::<#[0-9a-f]+>)?"?\(', line) if line.startswith("define ") else None
            if found and line.rstrip().endswith("{"):
                here = names.setdefault(found.group(1), len(names))
        out.write(f"\n@saber_reached = global [{len(names)} x i8] zeroinitializer\n")
    return list(names)


def reached_by(program, folder, file, count):
    """The bytes that the cases of this file set."""
    end = f"((char*)&saber_reached)"
    words = ["gdb", "-q", "-batch", "-ex", "break _exit", "-ex", "run", "-ex", f"dump binary memory {program}.bytes {end} ({end}+{count})"]
    subprocess.run([*words, "--args", program, file], cwd=folder, stdout=subprocess.DEVNULL, stderr=subprocess.DEVNULL, check=True)
    return open(f"{program}.bytes", "rb").read()


def public_calls(tree, word):
    """Public functions of the crates: crate and name."""
    for path in sorted(glob.glob(f"{tree}/crates/*/src/**/*.rt", recursive=True)):
        crate = os.path.relpath(path, f"{tree}/crates").split("/")[0]
        for found in re.finditer(r"^ *pub fn (\w+)(.*?)(?=\n\s*(?:where|requires|ensures|\{)|\{|;)", open(path).read(), re.S | re.M):
            answer = found.group(2).rpartition("->")[2] if "->" in found.group(2) else ""
            if crate not in ABOVE and (word in crate + "::" + found.group(1) if word else re.search(LACK, answer)):
                yield crate, found.group(1)


tree, out = os.path.abspath(sys.argv[1]), os.path.abspath(sys.argv[2])
word = sys.argv[3] if len(sys.argv) > 3 else ""
data = f"{tree}/crates/saber_cases/data"
subprocess.run([sys.executable, f"{HERE}/../unproved/unproved.py", tree, f"{out}.whole", "saber_cases"], check=True)
names = marked(f"{out}.whole.ll", f"{out}.ll")
subprocess.run([f"{KIT}/toolchain/bin/clang", *FLAGS, "-c", "-x", "ir", f"{out}.ll", "-o", f"{out}.o"], check=True)
link = [f"{KIT}/bin/rattle-link", "--target", "x86_64-unknown-linux-gnu", "--toolchain", f"{KIT}/toolchain", "-o", out]
subprocess.run([*link, f"{out}.o", f"{KIT}/c/libos_c.a", f"{KIT}/c/liblibc_c.a"], check=True)
files = {}
for file in open(f"{tree}/crates/saber_cases/args").read().split():
    for name, byte in zip(names, reached_by(out, data, file, len(names))):
        if byte:
            files.setdefault(name, []).append(file.partition(".")[0])
for crate, call in public_calls(tree, word):
    ours = [name for name in names if re.fullmatch(rf"{crate}::(.*::)?{call}(::.*)?", name)]
    told = sorted({file for name in ours for file in files.get(name, [])})
    print(crate, call, " ".join(told) if told else "- no case" if ours else "- not in the program")
