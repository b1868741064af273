"""The program and the library for systems that aren't Linux, of the modules of LLVM that the proofs of the builds for Linux gave: a module is
rewritten so that its border has scalars and pointers alone, which all calling conventions pass alike, and compiled by the kit's clang.
Windows' files are linked by mingw's gcc, those of macOS by the kit's linker.
"""
import os
import re
import shutil
import tempfile
from dataclasses import dataclass

from release_build import ENTRY, LIBRARY, MANY_EVENTS, PROGRAM, TOP, calls, module_of, run, sum_of, version

MINGW = "x86_64-w64-mingw32-gcc"
WINDOWS = "x86_64-windows"
# What macOS' C library is asked for.
SYSTEM_CALLS = ("malloc calloc realloc free memcpy memmove memset memset_pattern16 memcmp memchr bzero __bzero bcmp read write open close isatty lseek "
                "rename unlink chmod stat stat$INODE64 strerror_r __error signal getenv __stack_chk_fail").split()
# The host's calls, by the names that the modules have for them, and those that system/windows.c and system/macos.c have.
HOST = {"read": "host_read", "write": "host_write", "close": "host_close", "isatty": "host_isatty", "lseek": "host_lseek",
        "rename": "host_rename", "unlink": "host_unlink", "chmod": "host_chmod", "statx": "host_statx",
        "__xpg_strerror_r": "host_strerror", "__sysv_signal": "host_signal"}
# What system/program.c calls, for the same.
NAMES = {"main": "program_main", "write": "host_write", "getenv": "host_getenv", "signal": "host_signal", "__errno_location": "host_errno"}


@dataclass(frozen=True)
class System:
    """Which of Linux' modules is taken, and the kit's name of the target."""

    source: str
    target: str


SYSTEMS = {
    WINDOWS: System("x86_64-linux", "x86_64-w64-windows-gnu"),
    "aarch64-macos": System("aarch64-linux", "arm64-apple-macosx11.0"),
    "x86_64-macos": System("x86_64-linux", "x86_64-apple-macosx11.0"),
}
# The heap, as system/heap.c has it: what a call answers in two registers in LLVM isn't what C answers so on each system.
HEAP = """
declare ptr @malloc(i64)
declare ptr @realloc(ptr, i64)
declare void @free(ptr)
@nothing = private global [16 x i8] zeroinitializer, align 16
define internal PAIR @rattle_told(ptr %place) alwaysinline UNWIND {
  %is_there = icmp ne ptr %place, null
  %one = zext i1 %is_there to i64
  %some = select i1 %is_there, ptr %place, ptr @nothing
  %number = ptrtoint ptr %some to i64
  %half = insertvalue PAIR poison, i64 %one, 0
  %both = insertvalue PAIR %half, i64 %number, 1
  ret PAIR %both
}
define internal PAIR @rattle_alloc(i64 %bytes, i64 %align) alwaysinline UNWIND {
  %none = icmp eq i64 %bytes, 0
  %n = select i1 %none, i64 %align, i64 %bytes
  %place = call ptr @malloc(i64 %n)
  %both = call PAIR @rattle_told(ptr %place)
  ret PAIR %both
}
define internal PAIR @rattle_realloc(ptr %before, i64 %kept, i64 %bytes, i64 %align) alwaysinline UNWIND {
  %none = icmp eq i64 %bytes, 0
  %n = select i1 %none, i64 %align, i64 %bytes
  %place = call ptr @realloc(ptr %before, i64 %n)
  %both = call PAIR @rattle_told(ptr %place)
  ret PAIR %both
}
define internal void @rattle_dealloc(ptr %place) alwaysinline UNWIND {
  call void @free(ptr %place)
  ret void
}
"""


def lines_of_target(kit, target):
    """The lines on the target that the kit's clang writes."""
    said = run(kit.clang, f"--target={target}", "-S", "-emit-llvm", "-x", "c", os.devnull, "-o", "-")
    return re.search(r"^target datalayout = .*$", said, re.M)[0], re.search(r"^target triple = .*$", said, re.M)[0]


def with_host(text):
    """The host's calls by names of their own, open with three arguments; C's heap, and nothing that is for one processor."""
    text = re.sub(r' "(frame-pointer|probe-stack|stack-probe-size|target-cpu|target-features)"="[^"]*"', "", text)
    text = re.sub(r"^(attributes #\d+ = \{) *\}$", r"\1 nounwind }", text, flags=re.M)
    for name, other in HOST.items():
        text = text.replace(f"@{name}(", f"@{other}(")
    text = re.sub(r"\(ptr, i32, \.\.\.\) @open\(", "@open(", text)
    text = re.sub(r"@open\((ptr [^,()]*), (i32 [^,()]*), \.\.\.\)", r"@host_open(\1, \2, i32 noundef)", text)
    text = re.sub(r"@open\((ptr [^,()]*), (i32 [^,()]*)\)", r"@host_open(\1, \2, i32 0)", text)
    text = text.replace("@open(", "@host_open(")
    return re.sub(r"^declare .*@rattle_(alloc|realloc|dealloc)\(.*\n", "", text, flags=re.M)


def lowered(text, lines, entry, is_windows):
    """A module for a target. A program's main has the name of its entry."""
    text = with_host(text).replace("@main(", f"@{entry}(")
    for word, line in zip(("datalayout", "triple"), lines):
        text = re.sub(rf"^target {word} = .*$", lambda _: line, text, flags=re.M)
    if is_windows:
        # Windows unwinds by a table, which has each function that isn't a leaf.
        text = re.sub(r"^(attributes #\d+ = \{.*) \}$", r"\1 uwtable }", text, flags=re.M)
        text = with_results_in_memory(text)
    pair = re.search(r"(\{ i64, i64 \}|\[2 x i64\]) @rattle_(re)?alloc\(", text)
    return text + HEAP.replace("PAIR", pair[1] if pair else "{ i64, i64 }").replace("UNWIND", "nounwind uwtable" if is_windows else "nounwind")


def with_results_in_memory(text):
    """The calls that answer a struct of 16 bytes, in two registers, answer it where the caller says, as Windows has it. A larger one is there
    already, and a smaller one is a number on both systems."""
    for given, name, words in re.findall(r"^define (?:noundef )?(\{ i64, i64 \} @(csicodec_\w+)\(([^\n]*)\)) [^\n]*\{$", text, re.M):
        types = [word.split()[0] for word in words.split(", ")]
        taken = ", ".join(f"{kind} %a{i}" for i, kind in enumerate(types))
        text = text.replace(f"define {given}", f"define internal {given}").replace(f"define noundef {given}", f"define internal {given}")
        text = text.replace(f"@{name}(", f"@of_{name}(")
        text += f"define ptr @{name}(ptr %to, {taken}) nounwind uwtable {{\n  %both = call {{ i64, i64 }} @of_{name}({taken})\n"
        text += "  store { i64, i64 } %both, ptr %to, align 8\n  ret ptr %to\n}\n"
    return text


def text_of(kit, module):
    """A module of LLVM as text."""
    return run(kit.clang, "-x", "ir", "-S", "-emit-llvm", "-Xclang", "-disable-llvm-passes", "-w", module, "-o", "-")


def object_of(kit, made, place, crate, room):
    """A crate's object for a system, or what was made of the same."""
    system, source = SYSTEMS[place], module_of(made[SYSTEMS[place].source, crate])
    to = f"{TOP}/out/release/{place}/{crate}.o"
    stamp = f"{sum_of(source)} {sum_of(__file__)} {kit.line}"
    os.makedirs(os.path.dirname(to), exist_ok=True)
    if os.path.isfile(f"{to}.stamp") and os.path.isfile(to):
        with open(f"{to}.stamp", encoding="utf-8") as file:
            if file.read() == f"{stamp} {sum_of(to)}":
                return to
    own = tempfile.mkdtemp(dir=room)
    text = lowered(text_of(kit, source), lines_of_target(kit, system.target), ENTRY if crate == PROGRAM else "main", place == WINDOWS)
    with open(f"{own}/it.ll", "w", encoding="utf-8") as file:
        file.write(text)
    run(kit.clang, f"--target={system.target}", "-O3", "-w", "-ffunction-sections", "-fdata-sections", "-c", f"{own}/it.ll", "-o", to)
    with open(f"{to}.stamp", "w", encoding="utf-8") as file:
        file.write(f"{stamp} {sum_of(to)}")
    return to


def words():
    """What system/program.c is told."""
    return [f"-D{name}={other}" for name, other in NAMES.items()]


# ---- Windows


def link_windows(kit, made, folder, room):
    """csicodec.exe, csicodec.dll with its import library and its list of names, and the archive."""
    own = tempfile.mkdtemp(dir=room)
    how = ["-static-libgcc", "-Wl,--no-insert-timestamp", "-Wl,--gc-sections", "-s"]
    c_flags = ["-O2", "-Wall", "-Wextra", "-Werror", "-ffunction-sections", f"-I{TOP}/include"]
    run(MINGW, *c_flags, "-fno-builtin", *words(), "-c", f"{TOP}/system/program.c", "-o", f"{own}/program.o")
    for name in ("windows", "python"):
        run(MINGW, *c_flags, "-c", f"{TOP}/system/{name}.c", "-o", f"{own}/{name}.o")
    program = object_of(kit, made, WINDOWS, PROGRAM, room)
    # As much stack as a program has on Linux.
    run(MINGW, *how, "-Wl,--stack,8388608", "-o", f"{folder}/csicodec.exe", f"{own}/program.o", f"{own}/windows.o", program, "-lshell32")
    library = object_of(kit, made, WINDOWS, LIBRARY, room)
    with open(f"{folder}/csicodec.def", "w", encoding="utf-8") as file:
        file.write("LIBRARY csicodec.dll\nEXPORTS\n" + "".join(f"    {name}\n" for name in [*calls(), *MANY_EVENTS]))
    # mingw's linker would make the address of the name of the folder.
    run(MINGW, *how, "-shared", "-Wl,--image-base,0x180000000", "-o", f"{folder}/csicodec.dll", library, f"{own}/python.o", f"{folder}/csicodec.def")
    run(MINGW.replace("gcc", "dlltool"), "--deterministic-libraries", "-d", "csicodec.def", "-l", "libcsicodec.dll.a", cwd=folder)
    shutil.copy(library, f"{own}/csicodec.o")
    kit.tool("llvm-ar", "rcsD", f"{folder}/libcsicodec.a", "csicodec.o", cwd=own)


# ---- macOS


def link_macos(kit, made, place, folder, room):
    """The program, the shared library and the archive."""
    own, target = tempfile.mkdtemp(dir=room), SYSTEMS[place].target
    arch = target.split("-")[0]
    with open(f"{own}/libSystem.tbd", "w", encoding="utf-8") as file:
        file.write(f"--- !tapi-tbd\ntbd-version: 4\ntargets: [ {arch}-macos ]\ninstall-name: '/usr/lib/libSystem.B.dylib'\n"
                   f"exports:\n  - targets: [ {arch}-macos ]\n    symbols: [ {', '.join(f'_{name}' for name in SYSTEM_CALLS)}, dyld_stub_binder ]\n...\n")
    parts = {name: kit.c_object(target, name, f"{own}/{name}.o", "-fno-stack-protector", *more) for name, more in {
        "program": ["-fno-builtin", *words()], "macos": ["-fno-builtin"], "wide": [],
        "python": [f"-I{TOP}/system/headers", f"-I{TOP}/include"]}.items()}
    library = object_of(kit, made, place, LIBRARY, room)
    how = ["-arch", arch, "-platform_version", "macos", "11.0", "11.0", "-dead_strip", "-adhoc_codesign", "-no_uuid"]
    objects = [parts["program"], parts["macos"], parts["wide"], object_of(kit, made, place, PROGRAM, room)]
    kit.tool("ld64.lld", *how, "-o", f"{folder}/csicodec", *objects, f"{own}/libSystem.tbd")
    with open(f"{own}/names", "w", encoding="utf-8") as file:
        file.writelines(f"_{name}\n" for name in [*calls(), *MANY_EVENTS])
    major = version().split(".")[0]
    names = ["-dylib", "-install_name", f"@rpath/libcsicodec.{major}.dylib", "-exported_symbols_list", f"{own}/names"]
    kit.tool("ld64.lld", *how, *names, "-o", f"{folder}/libcsicodec.dylib", library, parts["python"], parts["wide"], f"{own}/libSystem.tbd")
    shutil.copy(library, f"{own}/csicodec.o")
    kit.tool("llvm-ar", "rcsD", "--format=darwin", f"{folder}/libcsicodec.a", "csicodec.o", cwd=own)


def lacks():
    """Why Windows' files can't be made here; nothing if they can."""
    return "" if shutil.which(MINGW) else f"no {MINGW} in PATH (apt-get install gcc-mingw-w64-x86-64)"


def build(kit, made, place, folder, room):
    """The files for a system, in a folder."""
    os.makedirs(folder, exist_ok=True)
    if place == WINDOWS:
        link_windows(kit, made, folder, room)
    else:
        link_macos(kit, made, place, folder, room)
