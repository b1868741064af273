"""The modules for WebAssembly, and the page. The modules of LLVM that the proofs of the build for ARM gave are rewritten for WebAssembly,
compiled by the kit's clang and linked by its linker; binaryen then makes the memory one of 32 bits, which every browser has. The library's
module for engines has vectors (SIMD). The one of which release_portable.py makes C has none, nor has the program's.
"""
import lzma
import os
import re
import shutil
import sys
import tempfile

import release_page
from release_build import ENTRY, LIBRARY, PROGRAM, TOP, Stop, calls, module_of, run, sum_of

TARGET = "wasm64-unknown-unknown"
FEATURES = ["-mnontrapping-fptoint", "-msign-ext"]
BULK, VECTORS = "-mbulk-memory", "-msimd128"
ENABLED = [f"--enable-{it}" for it in ("bulk-memory", "nontrapping-float-to-int", "sign-ext", "mutable-globals", "memory64")]
LAYOUT = 'target datalayout = "e-m:e-p:64:64-p10:8:8-p20:8:8-i64:64-i128:128-n32:64-S128"'
PARTS = ("web", "wide")
# The crate that each module is of: the library's, which the package for node has, the program's, which the page has too, and the library's
# with no vectors, which becomes the file of C.
MODULES = {"csicodec": LIBRARY, "explain": PROGRAM, "portable": LIBRARY}
WITH_VECTORS, PORTABLE = ("csicodec",), "portable"
# ARM adds neighbours up three times, in lanes of a mask of which it took these bits, where others have one instruction.
BITS = "<" + ", ".join(f"i8 {bit}" for bit in (1, 2, 4, 8, 16, 32, 64, -128) * 2) + ">"


def need():
    if not shutil.which("wasm-opt"):
        raise Stop("release: no wasm-opt in PATH: the modules for WebAssembly can't be made (apt-get install binaryen; Debian 12's 108 was tried)")


def tool():
    """The tool that makes the last step."""
    return "binaryen " + run("wasm-opt", "--version").strip()


def picked():
    """ARM's TBL in terms of LLVM: each byte of the second vector says which one of the first it becomes, or 0 from 16 on."""
    lanes, before = [], "zeroinitializer"
    for i in range(16):
        lanes.append(f"""  %at{i} = extractelement <16 x i8> %places, i32 {i}
  %is{i} = icmp ult i8 %at{i}, 16
  %in{i} = and i8 %at{i}, 15
  %place{i} = zext i8 %in{i} to i32
  %byte{i} = extractelement <16 x i8> %table, i32 %place{i}
  %own{i} = select i1 %is{i}, i8 %byte{i}, i8 0
  %all{i} = insertelement <16 x i8> {before}, i8 %own{i}, i32 {i}
""")
        before = f"%all{i}"
    return f"define internal <16 x i8> @picked(<16 x i8> %table, <16 x i8> %places) noinline {{\n{''.join(lanes)}  ret <16 x i8> {before}\n}}\n"


def pairs():
    """ARM's ADDP in terms of LLVM: the sums of neighbours."""
    even, odd = ("<16 x i32> <" + ", ".join(f"i32 {i}" for i in range(begin, 32, 2)) + ">" for begin in (0, 1))
    return f"""define internal <16 x i8> @pairs(<16 x i8> %a, <16 x i8> %b) alwaysinline {{
  %e = shufflevector <16 x i8> %a, <16 x i8> %b, {even}
  %o = shufflevector <16 x i8> %a, <16 x i8> %b, {odd}
  %s = add <16 x i8> %e, %o
  ret <16 x i8> %s
}}
"""


def bits(name, masks):
    """A vector of the bits of one, two or four masks, again and again. A mask is what is tested of each lane."""
    count, width, lines, all_bits = 8 // len(masks), 16 * len(masks), [], "0"
    for i, mask in enumerate(masks):
        lines += [f"{name}.is{i} = icmp {mask}, zeroinitializer", f"{name}.few{i} = bitcast <16 x i1> {name}.is{i} to i16"]
        lines += [f"{name}.own{i} = zext i16 {name}.few{i} to i64", f"{name}.at{i} = shl i64 {name}.own{i}, {16 * i}"]
        lines.append(f"{name}.sum{i} = or i64 {all_bits}, {name}.at{i}")
        all_bits = f"{name}.sum{i}"
    lines += [f"{name}.all = trunc i64 {all_bits} to i{width}" if width < 64 else f"{name}.all = add i64 {all_bits}, 0"]
    lines += [f"{name}.one = insertelement <{count} x i{width}> poison, i{width} {name}.all, i64 0"]
    lines += [f"{name}.each = shufflevector <{count} x i{width}> {name}.one, <{count} x i{width}> poison, <{count} x i32> zeroinitializer"]
    return "\n".join(f"  {line}" for line in [*lines, f"{name} = bitcast <{count} x i{width}> {name}.each to <16 x i8>"])


def with_bits(function):
    """A function in which the bits of masks of lanes are no sums of neighbours."""
    def of(pattern):
        return {it[1]: it[2] for it in re.finditer(rf"^  (%\S+) = {pattern}", function, re.M)}

    # A lane of these is all ones or 0.
    full = of(r"sext <\d+ x (i)1>") | of(r"ashr <\d+ x (i)8> %\S+, splat \(i8 7\)")
    full |= {name: part for name, part in of(r"shufflevector <\d+ x i8> (%\S+), <\d+ x i8> poison").items() if part in full}
    masks = {name: f"slt <16 x i8> {lanes}" if lanes in full else f"ne <16 x i8> {name}" for name, lanes in of(f"and <16 x i8> (%\\S+), {BITS}").items()}
    masks |= {name: f"ne <16 x i8> {name}" for name in of(f"select <16 x (i)1> %\\S+, <16 x i8> {BITS}, <16 x i8> zeroinitializer")}
    sum_of = re.compile(r"^  (%\S+) = (?:tail )?call <16 x i8> @llvm\.aarch64\.neon\.addp\.v16i8\(<16 x i8> (%\S+), <16 x i8> (%\S+)\)", re.M)
    sums = {it[1]: [it[2], it[3]] for it in sum_of.finditer(function)}

    def summed(name):
        """The masks, eight of them, of which a sum of sums of sums has the bits."""
        names = [name]
        for _ in range(3):
            names = [part for it in names for part in sums.get(it, [""])]
        return [masks[it] for it in names] if {*names} <= masks.keys() else []

    def instead(it):
        found = summed(it[1])
        few = next((found[:count] for count in (1, 2, 4) if found == found[:count] * (8 // count)), None)
        return bits(it[1], few) if found and few else it[0]

    return sum_of.sub(instead, function)


def in_sixteens(it):
    """The bits of 8, 32 or 64 lanes by those of 16: LLVM 22 fails where others are compared with 0."""
    name, lanes, mask, lines, before = it[1], int(it[2]), it[3], [], "0"
    own, width = f"%of.{mask[1:]}.{it.start()}", max(16, lanes)
    for i in range(width // 16):
        places = ", ".join(f"i32 {16 * i + j}" for j in range(16))
        lines += [f"{own}.p{i} = shufflevector <{lanes} x i1> {mask}, <{lanes} x i1> zeroinitializer, <16 x i32> <{places}>", f"{own}.b{i} = bitcast <16 x i1> {own}.p{i} to i16"]
        lines += [f"{own}.w{i} = zext i16 {own}.b{i} to i64", f"{own}.s{i} = shl i64 {own}.w{i}, {16 * i}", f"{own}.o{i} = or i64 {before}, {own}.s{i}"]
        before = f"{own}.o{i}"
    lines.append(f"{name} = trunc i64 {before} to i{lanes}" if lanes < 64 else f"{name} = or i64 {before}, 0")
    return "\n".join(f"  {line}" for line in lines)


def lowered(text, has_vectors):
    """The module of LLVM for aarch64, for WebAssembly: its layout, no words on processors, and in place of ARM's two instructions those of
    WebAssembly's vectors, or LLVM's terms. A program's main has the name of its entry."""
    text = re.sub(r'^target datalayout = ".*"$', LAYOUT, text, flags=re.M)
    text = re.sub(r'^target triple = ".*"$', f'target triple = "{TARGET}"', text, flags=re.M)
    text = re.sub(r' "(frame-pointer|probe-stack|stack-probe-size|target-cpu|target-features)"="[^"]*"', "", text)
    if has_vectors:
        # The order of uses, which is told here and there, is another behind this.
        text = re.sub(r"^ *uselistorder .*\n", "", text, flags=re.M)
        text = "".join(map(with_bits, re.split(r"^(?=define )", text, flags=re.M)))
        text = text.replace("@llvm.aarch64.neon.tbl1.v16i8", "@llvm.wasm.swizzle")
        text = re.sub(r"^  (%\S+) = bitcast <(8|32|64) x i1> (%\S+) to i\2$", in_sixteens, text, flags=re.M)
        # Assembly can't be read back with names in quotes.
        numbers = {name: i for i, name in enumerate(dict.fromkeys(re.findall(r'@"[^"]*"', text)))}
        text = re.sub(r'@"[^"]*"', lambda it: f"@numbered.{numbers[it[0]]}", text)
    text = re.sub(r"^declare <16 x i8> @llvm\.aarch64\.neon\.addp\.v16i8.*\n", lambda _: pairs(), text, flags=re.M)
    text = re.sub(r"^declare <16 x i8> @llvm\.aarch64\.neon\.tbl1\.v16i8.*\n", lambda _: picked(), text, flags=re.M)
    text = text.replace("@llvm.aarch64.neon.tbl1.v16i8", "@picked")
    text = text.replace("@llvm.aarch64.neon.addp.v16i8", "@pairs").replace("@main(", f"@{ENTRY}(")
    left = sorted({*re.findall(r"@llvm\.(?:aarch64|x86)[\w.]*", text)})
    if left:
        raise Stop(f"release: WebAssembly has nothing for {', '.join(left)}")
    return text


def plainly(assembly):
    """Assembly in which vectors are loaded and stored whole, or by a number: binaryen 108 leaves the addresses of other forms at 64 bits."""
    for bits, shape, load, store, sign in ((8, "i8x16", "i32.load8_u", "i32.store8", "_u"), (16, "i16x8", "i32.load16_u", "i32.store16", "_u"),
                                           (32, "i32x4", "i32.load", "i32.store", ""), (64, "i64x2", "i64.load", "i64.store", "")):
        assembly = re.sub(rf"v128\.load{bits}_splat\t(.*)", rf"{load}\t\1\n\t{shape}.splat", assembly)
        assembly = re.sub(rf"v128\.store{bits}_lane\t(.*), (\d+)", rf"{shape}.extract_lane{sign}\t\2\n\t{store}\t\1", assembly)
    loads = {}
    assembly = re.sub(r"v128\.load(32|64)_lane\t(.*), (\d+)", lambda it: f"call\tlane_load_{loads.setdefault(it.groups(), len(loads))}", assembly)
    for (bits, place, lane), i in loads.items():
        kind, shape = f"\t.functype lane_load_{i} (i64, v128) -> (v128)\n", "i32x4" if bits == "32" else "i64x2"
        assembly = f'{kind}{assembly}\n\t.section .text.lane_load_{i},"",@\n\t.type lane_load_{i},@function\nlane_load_{i}:\n{kind}'
        assembly += f"\tlocal.get 1\n\tlocal.get 0\n\ti{bits}.load {place}\n\t{shape}.replace_lane {lane}\n\tend_function\n"
    low = r"\t\1\n\ti64x2.splat\n\t"
    for bits, load in ((32, "i64.load32_u"), (64, "i64.load")):
        assembly = re.sub(rf"v128\.load{bits}_zero\t(.*)", rf"{load}{low}v128.const\t-1, 0\n\tv128.and", assembly)
    for shape, parts, few in (("i16x8", "8x8", "i8x16"), ("i32x4", "16x4", "i16x8"), ("i64x2", "32x2", "i32x4")):
        assembly = re.sub(rf"{shape}\.load{parts}_([su])\t(.*)", rf"i64.load\t\2\n\ti64x2.splat\n\t{shape}.extend_low_{few}_\1", assembly)
    return assembly


def number(held, at):
    """The number (LEB128) at a place, and the place behind it."""
    value = shift = 0
    while True:
        value |= (held[at] & 127) << shift
        shift, at = shift + 7, at + 1
        if held[at - 1] < 128:
            return value, at


def table_of_32_bits(held):
    """The module with no table of 64 bits, which binaryen and node 20 don't know: the limits' bit for it is taken away."""
    held, at = bytearray(held), 8
    while at < len(held):
        kind = held[at]
        size, begin = number(held, at + 1)
        if kind == 4:
            count, place = number(held, begin)
            for _ in range(count):
                held[place + 1] &= ~4
                _, after = number(held, place + 2)
                place = number(held, after)[1] if held[place + 1] & 1 else after
        at = begin + size
    return bytes(held)


def module(kit, made, name, to, room):
    """The module of a crate, or what was made of the same."""
    source = module_of(made["aarch64-linux", MODULES[name]])
    read = (source, __file__, *(f"{TOP}/system/{part}.c" for part in (*PARTS, "copy")))
    kept, stamp = f"{TOP}/out/release/web/{name}.wasm", " ".join(map(sum_of, read)) + tool()
    os.makedirs(os.path.dirname(kept), exist_ok=True)
    if os.path.isfile(f"{kept}.stamp") and os.path.isfile(kept):
        with open(f"{kept}.stamp", encoding="utf-8") as file:
            if file.read() == f"{stamp} {sum_of(kept)}":
                shutil.copy(kept, to)
                return
    print(f"release: {name} for WebAssembly", file=sys.stderr, flush=True)
    build_module(kit, source, name, kept, room)
    with open(f"{kept}.stamp", "w", encoding="utf-8") as file:
        file.write(f"{stamp} {sum_of(kept)}")
    shutil.copy(kept, to)


def build_module(kit, source, name, to, room):
    own, is_program, vectors = tempfile.mkdtemp(dir=room), MODULES[name] == PROGRAM, [VECTORS] if name in WITH_VECTORS else []
    with open(source, encoding="utf-8") as file:
        text = lowered(file.read(), bool(vectors))
    with open(f"{own}/crate.ll", "w", encoding="utf-8") as file:
        file.write(text)
    # The page carries the program's, which is to be small; the library's is to be fast.
    level, last = ("-Os", "-Oz") if is_program else ("-O3", "-O3")
    # Without -mbulk-memory a copy is a call, of system/copy.c.
    own_flags = [*FEATURES, *(vectors or [BULK])]
    compiled = [kit.clang, f"--target={TARGET}", *own_flags, "-w"]
    if vectors:
        assembly = run(*compiled, level, "-Xclang", "-disable-llvm-passes", "-ffunction-sections", "-S", f"{own}/crate.ll", "-o", "-")
        with open(f"{own}/crate.s", "w", encoding="utf-8") as file:
            file.write(plainly(assembly))
        run(*compiled, "-Wa,--no-type-check", "-c", f"{own}/crate.s", "-o", f"{own}/crate.o")
    else:
        run(*compiled, level, "-ffunction-sections", "-c", f"{own}/crate.ll", "-o", f"{own}/crate.o")
    words = [*FEATURES, BULK, *vectors, *(["-DPROGRAM"] if is_program else [])]
    parts = [*PARTS, *(["copy"] if vectors else [])]
    objects = [f"{own}/crate.o", *(kit.c_object(TARGET, part, f"{own}/{part}.o", "-fno-builtin", *words) for part in parts)]
    exports = ["run"] if is_program else calls()
    how = ["--no-entry", "--gc-sections", "--strip-all", "--stack-first", "-z", "stack-size=1048576", *(f"--export={it}" for it in exports)]
    kit.tool("wasm-ld", "-mwasm64", *how, "-o", f"{own}/it.wasm", *objects)
    with open(f"{own}/it.wasm", "rb") as file:
        held = table_of_32_bits(file.read())
    with open(f"{own}/it.wasm", "wb") as file:
        file.write(held)
    features = [*ENABLED, *(["--enable-simd"] if vectors else [])]
    run("wasm-opt", f"{own}/it.wasm", *features, "--memory64-lowering", last, "-o", f"{own}/lowered.wasm")
    shutil.move(f"{own}/lowered.wasm", to)


def build(kit, made, to, room):
    """The page, with the program in it, and the library's modules, packed, beside it, from what was built for ARM."""
    os.makedirs(to, exist_ok=True)
    for name, crate in MODULES.items():
        module(kit, made, name, f"{room}/{name}.wasm", room)
        if crate == LIBRARY:
            with open(f"{room}/{name}.wasm", "rb") as file, open(f"{to}/{name}.wasm.xz", "wb") as module_file:
                module_file.write(lzma.compress(file.read(), preset=9 | lzma.PRESET_EXTREME))
    with open(f"{room}/explain.wasm", "rb") as file, open(f"{to}/index.html", "w", encoding="utf-8", newline="") as page:
        page.write(release_page.page(file.read()))


def library_of(dist, name="csicodec"):
    """A module of the library, which lies beside the page."""
    with open(f"{dist}/web/{name}.wasm.xz", "rb") as file:
        return lzma.decompress(file.read())


def modules_of(dist):
    """The modules of the package for node: the library's, and the program's, which is in the page."""
    return {"csicodec": library_of(dist), "explain": release_page.program_of(f"{dist}/web/index.html")}
