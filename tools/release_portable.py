"""csicodec-portable.c: the library for any system with a C compiler, as one file of C. It is the module for WebAssembly, of which wasm2c
makes C, inside system/portable.c, which has what that asks for, and the calls of the header.
"""
import re
import shutil

from release_build import TOP, Stop, run


def lacks():
    """Why it can't be made here; nothing if it can."""
    return "" if shutil.which("wasm2c") else "no wasm2c in PATH (apt-get install wabt; Debian 12's 1.0.32 was tried)"


def body(module, room):
    """What wasm2c makes of a module: its struct, and its functions, without what ahead of them is the same for each module, without what
    it exports behind them, and without indentation, which is a sixth of the packed file."""
    with open(f"{room}/module.wasm", "wb") as file:
        file.write(module)
    run("wasm2c", f"{room}/module.wasm", "-n", "csicodec", "-o", f"{room}/module.c")
    with open(f"{room}/module.c", encoding="utf-8") as file:
        text = file.read()
    with open(f"{room}/module.h", encoding="utf-8") as file:
        instance = re.search(r"^typedef struct Z_csicodec_instance_t \{.*?^\} Z_csicodec_instance_t;$", file.read(), re.M | re.S)
    functions = re.search(r"^static [a-z0-9]+ w2c_\w+\(.*?(?=^/\* export: 'memory' \*/$)", text, re.M | re.S)
    if not instance or not functions or "CALL_INDIRECT(" in functions[0]:
        raise Stop("release: what this wasm2c made of the module has another form than that of wabt 1.0.32")
    return re.sub("^ +", "", f"{instance[0]}\n\n{functions[0]}", flags=re.M)


def write(module, to, room):
    """Writes the file, of the library's module."""
    with open(f"{TOP}/system/portable.c", encoding="utf-8") as file:
        before, after = file.read().split('#include "module.c"\n')
    with open(to, "w", encoding="utf-8") as file:
        file.write(f"{before}{body(module, room)}{after}")
