"""The programs that are watched: the module of the sources, with calls of a sanitizer and of the schedules, linked with its runtime.

Its text is that of tools/unproved, without the checks of the try-out compiler: what a proved program is made of. The kit's clang
instruments it; the runtime of ThreadSanitizer comes from Debian's clang or gcc, that of AddressSanitizer from the kit.
"""
import hashlib
import os
import re
import shutil
import subprocess
import sys
import tempfile
from concurrent.futures import ThreadPoolExecutor

HERE = os.path.dirname(os.path.abspath(__file__))
TOP = os.path.dirname(os.path.dirname(HERE))
sys.path.append(f"{TOP}/tools/unproved")
import compiling

TARGET = f"{TOP}/target/races"
LACKS = "the runtime of ThreadSanitizer is missing: apt-get install clang-14 libclang-rt-14-dev, or gcc with its libtsan"
CLANGS = ["clang", *[f"clang-{number}" for number in range(21, 12, -1)]]
WORDS = {"thread": "sanitize_thread", "address": "sanitize_address"}
WRAPPED = ["pthread_create", "pthread_join", "sched_yield", "syscall"]
PLANTS = ["a store made plain", "a store relaxed", "a load relaxed", "a compare-exchange relaxed"]
PLANTED = [f"__tsan_atomic64_{name}" for name in ("load", "store", "compare_exchange_val")]
ATOMIC = re.compile(r"^  (%[\w.]+ = )?(load atomic|store atomic|atomicrmw|cmpxchg) ")
# What four runs at once take, with what ThreadSanitizer keeps of each.
LEAST_KB = 2 << 20
STEP = "  call void @saber_step()\n"


class Lacks(Exception):
    """What the machine lacks."""


def said(words):
    """What a command prints, or nothing where it can't be run."""
    try:
        return subprocess.run(words, capture_output=True, text=True, check=True, stdin=subprocess.DEVNULL).stdout.strip()
    except (OSError, subprocess.CalledProcessError):
        return ""


def compiler():
    """A compiler that has the runtime of ThreadSanitizer."""
    for name in CLANGS:
        folder = said([name, "-print-runtime-dir"])
        found = [f"{folder}/libclang_rt.tsan{it}.a" for it in ("", "-x86_64")] + [f"{os.path.dirname(folder)}/linux/libclang_rt.tsan-x86_64.a"]
        if folder and any(map(os.path.exists, found)):
            return name
    if os.path.isabs(said(["gcc", "-print-file-name=libtsan.so"])):
        return "gcc"
    raise Lacks(LACKS)


def write_watched(kind, plain, out):
    """Writes the module's text again, with the word that a sanitizer looks for and a call before and after each atomic step."""
    steps = 0
    with open(plain, encoding="utf-8") as source, open(out, "w", encoding="utf-8") as made:
        for line in source:
            if line.startswith("attributes #") and '"probe-stack"' in line:
                line = line.replace("{ ", f'{{ {WORDS[kind]} "frame-pointer"="all" ', 1)
            elif ATOMIC.match(line):
                line, steps = STEP + line + STEP, steps + 1
            made.write(line)
        made.write("\ndeclare void @saber_step()\n")
    return steps


def instrument(kit, kind, plain, made, level):
    """Compiles the module with the calls of a sanitizer."""
    with tempfile.TemporaryDirectory(prefix="module-", dir=os.path.dirname(made)) as scratch:
        steps = write_watched(kind, plain, f"{scratch}/module.ll")
        if not steps:
            raise Lacks("the module has no atomic step: nothing could be seen")
        compiling.call([f"{kit}/toolchain/bin/clang", f"--target={compiling.TARGET}", "--no-default-config", f"-fsanitize={kind}",
                        f"-O{level}", "-fPIE", "-ffunction-sections", "-fdata-sections", "-Wno-override-module", "-c", "-x", "ir", f"{scratch}/module.ll",
                        "-o", f"{scratch}/all.o"])
        os.replace(f"{scratch}/all.o", made)


def make_text(kit, scratch):
    """The text of the program's module, without the checks of the try-out compiler."""
    checked, plain, folders = f"{scratch}/checked.ll", f"{scratch}/plain.ll", compiling.libraries(kit, TOP, "saber")[1]
    compiling.make_text(kit, compiling.make_module(kit, TOP, "saber", scratch), checked)
    compiling.call([sys.executable, f"{TOP}/tools/unproved/strip.py", checked, plain, *[f"{name}={at}" for name, at in folders.items()]])
    os.remove(checked)
    return plain


def make_objects(folder, level, kinds):
    """The instrumented objects of the repository's sources, all of one module."""
    kit = compiling.kit()
    lacking = [kind for kind in kinds if not os.path.exists(f"{folder}/{kind}.o")]
    if not lacking:
        return
    with tempfile.TemporaryDirectory(prefix="races-", dir=TARGET) as scratch, ThreadPoolExecutor(len(lacking)) as pool:
        plain = make_text(kit, scratch)
        list(pool.map(lambda kind: instrument(kit, kind, plain, f"{folder}/{kind}.o", level), lacking))


def link(kind, instrumented, program, plant=0):
    """Links an object with the schedules and the sanitizer's runtime; with a plant, one kind of its atomic steps is broken."""
    kit, cc = compiling.kit(), compiler()
    parts, wrapped = [f"{HERE}/schedules.c"], list(WRAPPED)
    if plant:
        parts, wrapped = [*parts, f"{HERE}/plants.c"], wrapped + PLANTED
    with tempfile.TemporaryDirectory(prefix="link-", dir=os.path.dirname(program)) as scratch:
        objects = [f"{scratch}/{at}.o" for at, _ in enumerate(parts)]
        for part, made in zip(parts, objects):
            compiling.call([cc, "-O1", "-fno-omit-frame-pointer", "-fno-builtin", "-fPIE", f"-DPLANT={plant}", "-c", part, "-o", made])
        words = [cc, "-pie", "-Wl,--gc-sections", *[f"-Wl,--wrap={it}" for it in wrapped], instrumented, *objects,
                 f"{kit}/c/libos_c.a", f"{kit}/c/liblibc_c.a", "-lpthread"]
        if kind == "thread":
            words += ["-fsanitize=thread"]
        else:
            words += ["-Wl,--whole-archive", f"{kit}/c/asan.a", "-Wl,--no-whole-archive", "-Wl,--export-dynamic", "-lrt", "-lm", "-ldl", "-lresolv"]
        compiling.call([*words, "-o", f"{scratch}/program"])
        os.replace(f"{scratch}/program", program)
    return program


def stamp(level):
    """A hash of the sources, the toolchain and the way they are compiled."""
    told = hashlib.sha256(f"{said(['rt', 'version'])} {level}".encode())
    for crate in [*compiling.below(compiling.crates(TOP), "saber"), "saber"]:
        for folder, folders, names in os.walk(f"{TOP}/crates/{crate}/src"):
            folders.sort()
            for name in sorted(names):
                told.update(f"{os.path.relpath(folder, TOP)}/{name}".encode())
                with open(f"{folder}/{name}", "rb") as file:
                    told.update(file.read())
    return told.hexdigest()[:16]


def folder_of(level):
    """The folder of these sources' objects."""
    return f"{TARGET}/{stamp(level)}"


def be_ready(level):
    """Raises what a run lacks here, if there is something: a runtime, memory, or programs, which take minutes to build."""
    compiler()
    with open("/proc/meminfo", encoding="ascii") as file:
        free = next(int(line.split()[1]) for line in file if line.startswith("MemAvailable:"))
    if free < LEAST_KB:
        raise Lacks(f"{free >> 10} MB of memory are free, and runs need {LEAST_KB >> 10}")
    if not all(os.path.exists(f"{folder_of(level)}/{kind}.o") for kind in WORDS):
        raise Lacks("the watched programs aren't built: tools/races/races.py does so, in some minutes")


def tried(program):
    """A program that runs here: a sanitizer's memory may have no place on a machine."""
    ran = subprocess.run([program, "demo", "1", "1"], stdin=subprocess.DEVNULL, capture_output=True, text=True, check=False)
    if ran.returncode:
        raise Lacks(f"a watched program doesn't run here: status {ran.returncode}: {ran.stderr.strip()[:200]}")
    return program


def programs(level, kinds):
    """The watched programs of these kinds, built where there are none of these sources."""
    compiler()
    folder = folder_of(level)
    os.makedirs(folder, exist_ok=True)
    for other in os.listdir(TARGET):
        if f"{TARGET}/{other}" != folder:
            shutil.rmtree(f"{TARGET}/{other}", ignore_errors=True)
    make_objects(folder, level, kinds)
    return {kind: tried(link(kind, f"{folder}/{kind}.o", f"{folder}/saber-{kind}")) for kind in kinds}


def planted(scratch, level, what):
    """A copy of the program in a scratch folder, with a race planted into it."""
    return link("thread", f"{folder_of(level)}/thread.o", f"{scratch}/planted", PLANTS.index(what) + 1)


def reference():
    """The program that ./saber runs, which isn't watched."""
    found = said([sys.executable, "-B", f"{TOP}/tools/wrapper/build.py", "demo", "0", "0"])
    if not found:
        raise Lacks("there is no program to compare with: ./saber demo 0 0 builds it, and --program names one")
    return found
