"""What is run where there is no toolchain, made of what was proved: the program csicodec and the library for each processor, the modules
for WebAssembly, and the list of them. The kit alone makes all but the last step of the modules, which is binaryen's.
"""
import gzip
import hashlib
import os
import re
import shutil
import subprocess
import sys
import tempfile
from concurrent.futures import ThreadPoolExecutor

TOP = os.path.dirname(os.path.dirname(os.path.realpath(__file__)))
HERE = "x86_64-linux"
# The kit's name of each target, and what it is told of it. The first processor of x86-64 runs everywhere; the kit would take its second.
TARGETS = {HERE: ("x86_64-unknown-linux-gnu", ["--cpu", "x86-64"]), "aarch64-linux": ("aarch64-unknown-linux-gnu", [])}
# Which version of C's calls the shared library asks for: the oldest that the processor has.
GLIBC = {HERE: "2.2.5", "aarch64-linux": "2.17"}
LOADER = {HERE: "x86_64", "aarch64-linux": "aarch64"}
# The static library.
ARCHIVE = "libcsicodec.a"
# Of system/python.c, for the package for Python alone: no header has them, and their version is of its own.
MANY_EVENTS = ["csicodec_left", "csicodec_begin", "csicodec_tell"]
C_CALLS = ("malloc", "realloc", "free", "memcpy", "memmove", "memset", "memcmp", "memchr", "bcmp")
C_FLAGS = ["-O2", "-ffreestanding", "-ffunction-sections", "-fno-asynchronous-unwind-tables", "-Wall", "-Wextra", "-Werror"]


class Stop(Exception):
    """What can't be made, and why."""


def run(*words, cwd=None):
    """Runs a command, and answers what it wrote; what it said is told where it fails."""
    ran = subprocess.run(words, cwd=cwd, stdin=subprocess.DEVNULL, capture_output=True, text=True)
    if ran.returncode:
        raise Stop(f"{ran.stdout[-4000:]}{ran.stderr[-4000:]}\nrelease: failed: {' '.join(words)[:300]}")
    return ran.stdout


def shared(words):
    """What the script that the launcher shares says."""
    return run("sh", "-c", f'set -eu; top=$1; . "$top/tools/programs"; {words}', "release", TOP).strip()


# The crates that are built.
MADE = [PROGRAM, LIBRARY] = shared('echo "$program $library"').split()
# The name that the program's main has beside that of system/program.c.
ENTRY = "run_proved"


def contents(name):
    return shared(f"contents {name}")


def version():
    with open(f"{TOP}/include/csicodec.h", encoding="utf-8") as file:
        return re.search(r'^#define CSICODEC_VERSION "(.*)"$', file.read(), re.M)[1]


def sum_of(path):
    with open(path, "rb") as file:
        return hashlib.sha256(file.read()).hexdigest()


class Kit:
    """The toolchain, with the tools of LLVM that its clang is."""

    def __init__(self):
        if not shutil.which("rt"):
            raise Stop("release: the Rattle toolchain is missing: no rt in PATH (CONTRIBUTING.md says which one is needed)")
        self.folder = os.path.dirname(run("rt", "doc").strip())
        self.line = run("rt", "version").strip()
        self.clang = f"{self.folder}/toolchain/bin/clang"

    def tool(self, name, *words, **how):
        """Runs a tool of LLVM, or a linker: the program goes by the name that it is called by."""
        ran = subprocess.run([name, *words], executable=self.clang, stdin=subprocess.DEVNULL, capture_output=True, text=True, **how)
        if ran.returncode:
            raise Stop(f"{ran.stdout}{ran.stderr}\nrelease: failed: {name} {' '.join(words)[:300]}")
        return ran.stdout

    def c_object(self, target, name, to, *flags):
        """Compiles a file of system/."""
        run(self.clang, f"--target={target}", *C_FLAGS, *flags, "-c", f"{TOP}/system/{name}.c", "-o", to)
        return to


# ---- objects


def lines():
    """The words of each crate's line in crates.txt."""
    with open(f"{TOP}/crates.txt", encoding="utf-8") as file:
        found = [line.split("#")[0].strip() for line in file]
    return {line.split(":")[0].split()[0]: line.split(":")[1].split() for line in found if line}


def words_for(kit, name):
    """What the kit's compiler is told of a crate: where its root and the libraries are."""
    all_lines = lines()
    root = "src/main.rt" if os.path.isfile(f"{TOP}/crates/{name}/src/main.rt") else "src/lib.rt"
    words = ["--crate-name", name, root, "--links", f"{name}=", "-L", f"dependency={kit.folder}/rlibs"]
    for used in ["std", *all_lines[name]]:
        place = f"../{used}/out/rlib" if used in all_lines else f"{kit.folder}/rlibs"
        words += ["--extern", f"{used}={place}/{used}.rlib"]
    for used in below(name):
        words += ["-L", f"dependency=../{used}/out/rlib"]
    if root == "src/lib.rt":
        words += ["--crate-type", "staticlib"]
    return [*words, "--antt-project", f"{kit.folder}/rattle/logic/antt-project.json", "--logic-built", f"{kit.folder}/logic_built"]


def below(name):
    """The crates of the repository that a crate stands on, lowest first."""
    return shared(f"crates_of {name}").split("\n")[:-1]


def prove_below(name, kept):
    """Sees to it that the libraries below a crate are proved, of these sources. `rt ci` leaves them with no stamp."""
    there = [os.path.isdir(f"{TOP}/crates/{it}/out/rlib") for it in below(name)]
    stamped = [os.path.isfile(f"{TOP}/crates/{it}/out/rlib/stamp") for it in below(name)]
    if kept and all(there) and not all(stamped):
        return
    used = [it for it in lines()[name] if it in lines()]
    for it in used:
        # What stands below another is proved with that. What is said of the progress is passed on.
        if not any(it in below(other) for other in used):
            if subprocess.run([f"{TOP}/tools/prove", it], stdin=subprocess.DEVNULL, stdout=sys.stderr, check=False).returncode:
                raise Stop("release: not proved")


def folder_that_keeps(kit, room, module):
    """A copy of the kit's compilers, made of links, whose clang keeps the last module of LLVM that it is given: bitcode, or for ARM text."""
    to = f"{room}/toolchain"
    os.makedirs(f"{to}/bin")
    os.symlink(f"{kit.folder}/toolchain/lib", f"{to}/lib")
    for name in os.listdir(f"{kit.folder}/toolchain/bin"):
        if name != "clang":
            os.symlink(os.path.realpath(f"{kit.folder}/toolchain/bin/{name}"), f"{to}/bin/{name}")
    with open(f"{to}/bin/clang", "w", encoding="utf-8") as file:
        file.write(f'#!/bin/sh\nfor word; do case $word in *.ll | *.bc) [ ! -f "$word" ] || /bin/cp "$word" "{module}" ;; esac; done\nexec "{kit.clang}" "$@"\n')
    os.chmod(f"{to}/bin/clang", 0o755)
    return to


def object_of(kit, place, name):
    """Where a crate's object for a processor lies, or its archive, what its stamp must say, and whether it was built of these sources,
    and its module of LLVM is beside it."""
    to = f"{TOP}/out/release/{place}/{name}.{'a' if name == LIBRARY else 'o'}"
    stamp, is_there = f"{shared(f'sum_of_crates {name}')} {kit.line} {' '.join(TARGETS[place][1])}", False
    if os.path.isfile(f"{to}.stamp") and os.path.isfile(to) and os.path.isfile(module_of(to)):
        with open(f"{to}.stamp", encoding="utf-8") as file:
            is_there = file.read() == f"{stamp} {sum_of(to)}"
    return to, stamp, is_there


def module_of(to):
    """Where the module of LLVM lies that an object was compiled from."""
    return f"{os.path.splitext(to)[0]}.ll"


def build_object(kit, place, name, room):
    """Proves and builds a crate for a processor over the libraries below, and over what earlier checks of the crate in this checkout kept. The
    module of LLVM is kept beside it: of that for ARM the module for WebAssembly is made, and of both what runs on other systems (release_systems.py)."""
    target, more = TARGETS[place]
    to, stamp, _ = object_of(kit, place, name)
    os.makedirs(os.path.dirname(to), exist_ok=True)
    print(f"release: {name} for {place}", file=sys.stderr, flush=True)
    toolchain = folder_that_keeps(kit, tempfile.mkdtemp(dir=room), module_of(to))
    words = [*words_for(kit, name), "--incremental", "out/incremental", "--jobs", "2", "--toolchain", toolchain]
    words += ["--backend", "llvm", "--target", target, *more]
    run(f"{kit.folder}/bin/rattle", "build", *words, "-o", to, cwd=f"{TOP}/crates/{name}")
    with open(f"{to}.stamp", "w", encoding="utf-8") as file:
        file.write(f"{stamp} {sum_of(to)}")


def build_objects(kit, places, name, room):
    for place in places:
        build_object(kit, place, name, room)


def all_objects(kit, places, names, kept, room):
    """Those of all crates for all processors: what isn't there is built, some crates at once. For its second processor a crate is proved over
    what was kept for the first."""
    found = {(place, name): object_of(kit, place, name) for place in places for name in names}
    missing = {}
    for (place, name), (_, _, is_there) in found.items():
        if not is_there:
            missing.setdefault(name, []).append(place)
    for name in missing:
        prove_below(name, kept)
    with ThreadPoolExecutor(max(1, len(os.sched_getaffinity(0)) // 2)) as pool:
        for built in [pool.submit(build_objects, kit, those, name, room) for name, those in missing.items()]:
            built.result()
    return {key: to for key, (to, _, _) in found.items()}


# ---- files


def link_program(kit, place, made, to, room):
    """The static program, on which ASLR works, with the parts of musl that it asks for."""
    target = TARGETS[place][0]
    own = tempfile.mkdtemp(dir=room)
    parts = ("program", "begin", "files", "heap", "wide", *(["copy"] if place == HERE else []))
    files = [kit.c_object(target, name, f"{own}/{name}.o", "-fPIE") for name in parts]
    files.append(f"{own}/{PROGRAM}.o")
    kit.tool("llvm-objcopy", "--redefine-sym", f"main={ENTRY}", made[place, PROGRAM], files[-1])
    how = ["-static", "-pie", "--no-dynamic-linker", "-z", "relro", "-z", "now", "-z", "noexecstack", "--gc-sections", "--icf=safe", "--build-id=none"]
    how += ["--pack-dyn-relocs=relr", "-e", "program_begin"]
    kit.tool("ld.lld", *how, "-s", "-u", "_start", "-o", to, *files, f"{TOP}/system/{place}/musl.a")


def sections_of(kit, path):
    """The sections of an object that hold code and constants, by their names: which sections each leads to, and which the header's calls are in."""
    symbols, leads, exported, at = {}, {}, set(), ""
    for line in kit.tool("llvm-readelf", "--sections", "--wide", path).splitlines():
        if found := re.match(r"\s*\[\s*(\d+)\] (\.(?:text|rodata|data\.rel\.ro)\.\S+)\s+PROGBITS", line):
            symbols[int(found[1])] = found[2]
            leads[found[2]] = set()
    for line in kit.tool("llvm-readelf", "--symbols", "--wide", path).splitlines():
        words = line.split()
        if len(words) == 8 and words[6].isdigit() and int(words[6]) in symbols:
            symbols[words[7]] = symbols[int(words[6])]
            exported |= {symbols[words[7]]} if words[4] == "GLOBAL" else set()
    for line in kit.tool("llvm-readelf", "--relocations", "--wide", path).splitlines():
        if found := re.match(r"Relocation section '\.rela(\S+)'", line):
            at = found[1]
        elif at in leads and len(words := line.split()) > 4:
            leads[at] |= {symbols.get(words[4], words[4])} & leads.keys() - {at}
    return leads, exported


def join_sections(kit, path):
    """Joins the sections of an object that are needed only where one other is. A linker still leaves out what isn't called, and each section
    costs a header, and one more for its relocations."""
    leads, exported = sections_of(kit, path)
    needed_by = {name: {other for other, those in leads.items() if name in those} for name in leads}
    group = {name: name for name in leads}
    changed = True
    while changed:
        changed = False
        for name in [name for name in leads if name not in exported]:
            roots = {group[other] for other in needed_by[name]} - {name}
            if group[name] == name and len(roots) == 1:
                changed, root = True, roots.pop()
                group = {other: root if at == name else at for other, at in group.items()}
    numbers = {root: at for at, root in enumerate(dict.fromkeys(group[name] for name in leads))}
    kind = re.compile(r"\.(?:text|rodata|data\.rel\.ro)(?:\.unlikely|\.cst\d+|\.str[\d.]+)?\.")
    kit.tool("llvm-objcopy", *(f"--rename-section={name}={kind.match(name)[0]}{numbers[group[name]]}" for name in leads), path)
    os.rename(path, f"{path}.parts")
    kit.tool("ld.lld", "-r", "-o", path, f"{path}.parts")


def pack_archive(archive, folder):
    """Puts an archive into a folder of dist/, packed by gzip, which takes a third of it."""
    with open(archive, "rb") as file, open(f"{folder}/{ARCHIVE}.gz", "wb") as packed:
        packed.write(gzip.compress(file.read(), mtime=0))


def unpack_archive(folder, to):
    """The archive of a folder of dist/, in another folder."""
    os.makedirs(to, exist_ok=True)
    with gzip.open(f"{folder}/{ARCHIVE}.gz") as packed, open(f"{to}/{ARCHIVE}", "wb") as file:
        shutil.copyfileobj(packed, file)


def sum_inside(path):
    """The sum of a file, or of what is packed in it: another version of gzip's compressor may pack the same otherwise."""
    if not path.endswith(".gz"):
        return sum_of(path)
    with gzip.open(path) as file:
        return hashlib.sha256(file.read()).hexdigest()


def link_library(kit, place, made, folder, room):
    """The archive, one object with the calls of the heap in it, whose names are its own; and the shared library, which exports the calls of
    the header and of system/python.c, and nothing else."""
    target, major = TARGETS[place][0], version().split(".")[0]
    own = tempfile.mkdtemp(dir=room)
    kit.tool("llvm-ar", "x", made[place, LIBRARY], cwd=own)
    parts = sorted(os.listdir(own))
    if len(parts) != 1:
        raise Stop(f"release: {made[place, LIBRARY]} has {len(parts)} members, not 1")
    kit.c_object(target, "heap", f"{own}/heap.o", "-fPIC", "-fvisibility=hidden")
    kit.tool("ld.lld", "-r", "-o", f"{own}/whole.o", f"{own}/{parts[0]}", f"{own}/heap.o")
    kit.tool("llvm-objcopy", "--wildcard", "--localize-symbol=rattle_*", "--strip-unneeded", f"{own}/whole.o")
    join_sections(kit, f"{own}/whole.o")
    kit.tool("llvm-ar", "rcsD", ARCHIVE, "whole.o", cwd=own)
    pack_archive(f"{own}/{ARCHIVE}", folder)
    with open(f"{own}/calls.c", "w", encoding="utf-8") as file:
        file.writelines(f"void {name}(void) {{}}\n" for name in C_CALLS)
    newer = "GLIBC_2.14 { global: memcpy; } GLIBC_2.2.5;\n" if place == HERE else ""
    older = [name for name in C_CALLS if not (newer and name == "memcpy")]
    with open(f"{own}/versions", "w", encoding="utf-8") as file:
        file.write(f"GLIBC_{GLIBC[place]} {{ global: {'; '.join(older)}; local: *; }};\n{newer}")
    run(kit.clang, f"--target={target}", "-ffreestanding", "-fPIC", "-fno-builtin", "-w", "-c", f"{own}/calls.c", "-o", f"{own}/calls.o")
    kit.tool("ld.lld", "-shared", "-soname", "libc.so.6", "--version-script", f"{own}/versions", "-o", f"{own}/libc.so.6", f"{own}/calls.o")
    kit.c_object(target, "python", f"{own}/python.o", "-fPIC", f"-I{TOP}/system/headers", f"-I{TOP}/include")
    with open(f"{own}/names", "w", encoding="utf-8") as file:
        file.write(f"CSICODEC_{major} {{ global: {'; '.join(calls())}; local: *; }};\nCSICODEC_PRIVATE {{ global: {'; '.join(MANY_EVENTS)}; }};\n")
    how = ["-shared", "-soname", f"libcsicodec.so.{major}", "--version-script", f"{own}/names", "-z", "relro", "-z", "now", "-z", "defs", "-z", "noexecstack"]
    how += ["--gc-sections", "--icf=safe", "--build-id=none", "--hash-style=gnu", "-s"]
    kit.tool("ld.lld", *how, "-o", f"{folder}/libcsicodec.so", f"{own}/{parts[0]}", f"{own}/heap.o", f"{own}/python.o", f"{own}/libc.so.6")


def calls():
    """The calls of the header."""
    with open(f"{TOP}/include/csicodec.h", encoding="utf-8") as file:
        return re.findall(r"^(?:struct csicodec_[a-z]*|uint32_t) (csicodec_[a-z_]*)\(", file.read(), re.M)


def build_files(kit, places, to, kept, room):
    """The program and the library for each processor."""
    made = all_objects(kit, places, MADE, kept, room)
    for place in places:
        os.makedirs(f"{to}/{place}", exist_ok=True)
        link_program(kit, place, made, f"{to}/{place}/csicodec", room)
        link_library(kit, place, made, f"{to}/{place}", room)
    return made


# ---- the list of them


def statements():
    """The sum of the statements that are proved of these sources."""
    with open(f"{TOP}/docs/STATEMENTS", encoding="utf-8") as file:
        return file.readline().split()[1]


def manifest(kit, to, tools):
    """Writes MANIFEST of what lies in the folder, of which statements are proved of it, and of which other tools made a part of it."""
    found = sorted(os.path.relpath(f"{at}/{name}", to) for at, _, names in os.walk(to) for name in names if name != "MANIFEST")
    with open(f"{to}/MANIFEST", "w", encoding="utf-8") as file:
        file.write(f"version {version()}\nkit {kit.line}\nstatements {statements()}\n" + "".join(f"tool {tool}\n" for tool in tools))
        file.writelines(f"sources {contents(name)} {name}\n" for name in [*MADE, "web"])
        file.writelines(f"file {sum_of(f'{to}/{name}')} {os.path.getsize(f'{to}/{name}')} {name}\n" for name in found)


class Manifest:
    """What MANIFEST tells: the sums of the sources and of the files, the other tools, and by one word each the version, the kit and the statements."""

    def __init__(self, folder):
        self.sources, self.files, self.tools, self.told = {}, {}, [], {}
        if os.path.isfile(f"{folder}/MANIFEST"):
            with open(f"{folder}/MANIFEST", encoding="utf-8") as file:
                for line in file:
                    self.read(*line.rstrip("\n").split(" ", 1))

    def read(self, word, rest):
        match word, rest.split():
            case "sources", [digest, name]:
                self.sources[name] = digest
            case "file", [digest, _, name]:
                self.files[name] = digest
            case "tool", _:
                self.tools.append(rest)
            case _:
                self.told[word] = rest


def is_of_these_sources(folder, names):
    """Whether what lies there was made of the sources as they stand."""
    sources = Manifest(folder).sources
    return all(sources.get(name) == contents(name) for name in names)


def other_sources(names):
    """What tools/programs says where dist/ is of other sources of one of these, and whether that is a fault, and no change in work."""
    ran = subprocess.run(["sh", "-c", 'top=$1; . "$top/tools/programs"; shift; other_sources "$@"', "release", TOP, *names], stdin=subprocess.DEVNULL, capture_output=True, text=True)
    return ran.stdout.strip(), ran.returncode != 0


def faults(folder):
    """What in the folder isn't as its MANIFEST says."""
    files = Manifest(folder).files
    there = {os.path.relpath(f"{at}/{name}", folder) for at, _, names in os.walk(folder) for name in names} - {"MANIFEST"}
    said = [f"{folder}/{name} is missing" for name in sorted({*files} - there)]
    said += [f"{folder}/{name} isn't told of in MANIFEST" for name in sorted(there - {*files})]
    return said + [f"{folder}/{name} isn't the file that MANIFEST tells of" for name in sorted(there & {*files}) if sum_of(f"{folder}/{name}") != files[name]]
