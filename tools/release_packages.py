"""The packages of what dist/ holds, the same bytes each time: tarballs, Debian's, Rust's, Python's and node's, and the page as one file; and
those for other systems, of the modules that dist/'s builds left: Windows, macOS, and the library as one file of C.
"""
import gzip
import io
import json
import os
import re
import shutil
import sys
import tarfile
import tempfile
import zipfile

sys.path.insert(0, os.path.join(os.path.dirname(os.path.dirname(os.path.realpath(__file__))), "python"))
import backend  # noqa: E402
from backend import about  # noqa: E402
import release_build as build  # noqa: E402
import release_portable as portable_c  # noqa: E402
import release_systems as systems  # noqa: E402
from release_build import ARCHIVE, HERE, TARGETS, TOP, Stop, run, sum_of, unpack_archive, version
from release_web import PORTABLE, library_of, modules_of

# The files of web/ that are node's package.
NODE = ("index.mjs", "index.d.ts", "csicodec.mjs", "forms.mjs", "actions.mjs", "actions.d.ts", "package.json")
# Debian's names of the processors.
DEBIAN = {"x86_64-linux": "amd64", "aarch64-linux": "arm64"}
# Cargo's names of the places that have an archive for it.
CARGO_TARGETS = {place: target for place, (target, _) in TARGETS.items()}
# The systems of each kind of package that isn't of dist/ alone.
OTHERS = {"windows": [systems.WINDOWS], "macos": ["aarch64-macos", "x86_64-macos"]}
HEADERS = [f"include/{name}" for name in ("csicodec.h", "csicodec_kinds.h", "csicodec_names.h", "csicodec_stream.h", "csicodec_lines.h")]


def epoch():
    """The time that every file has: of the last commit, if the environment doesn't say another."""
    return int(os.environ.get("SOURCE_DATE_EPOCH") or run("git", "-C", TOP, "log", "-1", "--format=%ct"))


def copy(names, to):
    os.makedirs(to, exist_ok=True)
    for name in names:
        shutil.copy(f"{TOP}/{name}" if not os.path.isabs(name) else name, to)


def pages(names, to):
    """Copies pages of the repository, whose links lead to where tools/about.txt says that its files are read, or nowhere."""
    os.makedirs(to, exist_ok=True)
    for name in names:
        with open(f"{TOP}/{name}", encoding="utf-8") as file:
            text = backend.packed(file.read(), os.path.dirname(name), about().get("files", ""))
        with open(f"{to}/{os.path.basename(name)}", "w", encoding="utf-8") as file:
            file.write(text)


def examples(end):
    """The programs of examples/ in one language."""
    return [f"examples/{name}" for name in sorted(os.listdir(f"{TOP}/examples")) if name.endswith(end)]


def pack(folder, name, to):
    """A tarball of a folder, under a name."""
    def plain(info):
        info.uid = info.gid = 0
        info.uname = info.gname = ""
        info.mtime = epoch()
        info.mode = 0o755 if info.isdir() or info.mode & 0o100 else 0o644
        return info

    held = io.BytesIO()
    with tarfile.open(fileobj=held, mode="w", format=tarfile.GNU_FORMAT) as tar:
        paths = sorted(os.path.join(at, it) for at, folders, names in os.walk(folder) for it in [*folders, *names])
        for path in [folder, *paths]:
            tar.add(path, os.path.join(name, os.path.relpath(path, folder)) if path != folder else name, recursive=False, filter=plain)
    with open(to, "wb") as file, gzip.GzipFile("", "wb", 9, file, mtime=epoch()) as packed:
        packed.write(held.getvalue())


def tarballs(dist, out, room):
    """A folder for each processor, which works where it is put."""
    for place in TARGETS:
        name = f"csicodec-{version()}-{place}"
        folder = f"{room}/{name}/csicodec"
        run(f"{TOP}/install", "--prefix=/csicodec", f"DESTDIR={room}/{name}", f"--built={dist}/{place}")
        with open(f"{folder}/lib/pkgconfig/csicodec.pc", "r+", encoding="utf-8") as file:
            text = file.read().replace("prefix=/csicodec\n", "prefix=${pcfiledir}/../..\n").replace("libdir=/csicodec/lib\n", "libdir=${prefix}/lib\n")
            file.seek(0)
            file.write(text)
            file.truncate()
        copy(["LICENSE", f"{dist}/NOTICE"], f"{folder}/share/doc/csicodec")
        pages(["README.md", "CHANGELOG.md"], f"{folder}/share/doc/csicodec")
        pack(folder, name, f"{out}/{name}.tar.gz")


def debian(dist, out, room):
    os.environ["SOURCE_DATE_EPOCH"] = str(epoch())
    for place, arch in DEBIAN.items():
        run(f"{TOP}/tools/debian", out, f"--arch={arch}", f"--built={dist}/{place}")


def tell_cargo(path):
    """Adds to a Cargo.toml what tools/about.txt tells of the project."""
    told = about()
    author = " ".join(it for it in (told.get("author"), f"<{told['email']}>" if "email" in told else "") if it)
    fields = {"homepage": told.get("homepage"), "repository": told.get("repository"), "authors": [author] if author else None}
    lines = "".join(f"{name} = {json.dumps(value, ensure_ascii=False)}\n" for name, value in fields.items() if value)
    with open(path, encoding="utf-8") as file:
        text = file.read()
    with open(path, "w", encoding="utf-8") as file:
        file.write(text.replace('license = "MIT"\n', f'license = "MIT"\n{lines}', 1))


def rust(dist, out, room):
    """The two packages as cargo makes them, with the archives inside."""
    shutil.copytree(f"{TOP}/rust", f"{room}/rust", ignore=shutil.ignore_patterns("target"))
    for folder in ("rust", "rust/sys"):
        pages([f"{folder}/README.md", "CHANGELOG.md"], f"{room}/{folder}")
        tell_cargo(f"{room}/{folder}/Cargo.toml")
    for place, target in CARGO_TARGETS.items():
        if os.path.isdir(f"{dist}/{place}"):
            unpack_archive(f"{dist}/{place}", f"{room}/rust/sys/lib/{target}")
    os.makedirs(f"{room}/rust/sys/portable")
    portable_c.write(library_of(dist, PORTABLE), f"{room}/rust/sys/portable/csicodec-portable.c", room)
    copy(HEADERS, f"{room}/rust/sys/portable/include")
    for folder in f"{room}/rust/sys", f"{room}/rust":
        copy([f"{dist}/NOTICE"], folder)
    run("cargo", "package", "--workspace", "--offline", "--no-verify", "--exclude-lockfile", "--quiet", "--target-dir", f"{room}/target", cwd=f"{room}/rust")
    for name in ("csicodec-sys", "csicodec"):
        made = f"{name}-{version()}.crate"
        if os.path.getsize(f"{room}/target/package/{made}") > 1_000_000:
            raise Stop(f"release: {made} is over 1,000,000 bytes")
        shutil.copy(f"{room}/target/package/{made}", out)


def page(dist, out, room):
    """The page and its modules, as one file."""
    shutil.copy(f"{dist}/web/index.html", f"{out}/csicodec-{version()}.html")


def tell_of_project(path):
    """Adds to a package.json what tools/about.txt tells of the project."""
    with open(path, encoding="utf-8") as file:
        package = json.load(file)
    told = about()
    names = {"homepage": "homepage", "repository": "repository", "issues": "bugs", "author": "author"}
    package |= {field: told[name] for name, field in names.items() if name in told}
    package["keywords"] = told["keywords"].replace(" ", "-").split(",-")
    with open(path, "w", encoding="utf-8") as file:
        json.dump(package, file, indent=2)


def node(dist, out, room):
    """The package for node: the modules, their types, and WebAssembly."""
    folder = f"{room}/node/package"
    copy([f"web/{name}" for name in NODE], folder)
    pages(["web/README.md"], folder)
    copy(examples(".mjs"), f"{folder}/examples")
    tell_of_project(f"{folder}/package.json")
    copy(["LICENSE", f"{dist}/NOTICE"], folder)
    for name, held in modules_of(dist).items():
        with open(f"{folder}/{name}.wasm", "wb") as file:
            file.write(held)
    pack(folder, "package", f"{out}/csicodec-{version()}.tgz")


def python(dist, out, room):
    """Wheels for both processors of Linux, and for Windows where that is made, and the sources with both libraries of Linux in them."""
    for place in filter(lambda it: os.path.isdir(f"{dist}/{it}"), backend.PLACES):
        backend.write_wheel(dist, place, out, [f"{TOP}/LICENSE", f"{dist}/NOTICE"], epoch())
    name = f"csicodec-{version()}"
    folder = f"{room}/python/{name}"
    shutil.copytree(f"{TOP}/python", folder, ignore=shutil.ignore_patterns("__pycache__", "*.so", "program", ".mypy_cache"))
    with open(f"{folder}/PKG-INFO", "w", encoding="utf-8") as file:
        file.write(backend.metadata())
    copy(["LICENSE", f"{dist}/NOTICE"], folder)
    pages(["python/README.md"], folder)
    copy(examples(".py"), f"{folder}/examples")
    copy(["tools/about.txt"], folder)
    for place in TARGETS:
        copy([f"{dist}/{place}/libcsicodec.so", f"{dist}/{place}/csicodec"], f"{folder}/dist/{place}")
    pack(folder, name, f"{out}/{name}.tar.gz")


def whole(folder, dist, place, tools):
    """What each folder for another system has: headers, documents, and MANIFEST."""
    copy(HEADERS, f"{folder}/include")
    copy(["LICENSE", f"{dist}/NOTICE"], f"{folder}/share/doc/csicodec")
    pages(["README.md", "CHANGELOG.md"], f"{folder}/share/doc/csicodec")
    build.manifest(build.Kit(), folder, tools)


def windows(dist, out, room):
    """The program, the library in both forms, and what a linker takes for it, as a zip."""
    name, from_folder = f"csicodec-{version()}-{systems.WINDOWS}", f"{dist}/{systems.WINDOWS}"
    folder = f"{room}/{name}"
    copy([f"{from_folder}/csicodec.exe", f"{from_folder}/csicodec.dll"], f"{folder}/bin")
    copy([f"{from_folder}/{it}" for it in ("libcsicodec.a", "libcsicodec.dll.a", "csicodec.def")], f"{folder}/lib")
    whole(folder, dist, systems.WINDOWS, [run(systems.MINGW, "--version").split("\n")[0]])
    with zipfile.ZipFile(f"{out}/{name}.zip", "w") as packed:
        for at, folders, names in os.walk(folder):
            folders.sort()
            for it in sorted(names):
                with open(f"{at}/{it}", "rb") as file:
                    backend.put_in(packed, os.path.join(name, os.path.relpath(f"{at}/{it}", folder)), file.read(), 0o755 if at.endswith("/bin") else 0o644, epoch())


def checked(folder, dist, room, library):
    """What shows whether a library that was built elsewhere does what Linux' does: c/all.c, the examples, the sums that it must write of
    them, and a script that compares."""
    copy(["c/all.c"], folder)
    streams = examples(".stream")
    copy(streams, f"{folder}/examples")
    unpack_archive(f"{dist}/{HERE}", room)
    run("cc", "-O2", f"-I{TOP}/include", "-o", f"{room}/answers", f"{TOP}/c/all.c", f"{room}/{ARCHIVE}")
    with open(f"{folder}/sums", "w", encoding="utf-8") as file:
        file.write(run(f"{room}/answers", *streams, cwd=TOP))
    with open(f"{folder}/check", "w", encoding="utf-8") as file:
        file.write(f"""#!/bin/sh
# Says whether the library does here what it does on Linux: the sums of what each call answers of the examples.
set -eu
cd "$(dirname "$0")"
cc -O2 -Iinclude -o all all.c {library}
./all examples/*.stream > found
if diff sums found; then echo "the library answers here as on Linux: $(wc -l < sums) sums"; else echo "the library answers otherwise here"; exit 1; fi
""")
    os.chmod(f"{folder}/check", 0o755)


def macos(dist, out, room):
    """Folders for both processors of macOS, which nobody has run yet: each has the script `check`."""
    for place in OTHERS["macos"]:
        name = f"csicodec-{version()}-{place}"
        folder = f"{room}/{name}"
        copy([f"{dist}/{place}/csicodec"], f"{folder}/bin")
        copy([f"{dist}/{place}/libcsicodec.a", f"{dist}/{place}/libcsicodec.dylib"], f"{folder}/lib")
        checked(folder, dist, room, "lib/libcsicodec.a")
        with open(f"{folder}/check", "a", encoding="utf-8") as file:
            file.write("printf '\\033[1mred\\033[5;7H' | bin/csicodec explain\n")
        whole(folder, dist, place, ["linked, and checked without being run: send us what ./check writes"])
        pack(folder, name, f"{out}/{name}.tar.gz")


def portable(dist, out, room):
    """The library as one file of C, for any system with a C compiler."""
    name = f"csicodec-{version()}-portable"
    folder = f"{room}/{name}"
    os.makedirs(folder)
    portable_c.write(library_of(dist, PORTABLE), f"{folder}/csicodec-portable.c", room)
    copy(HEADERS, f"{folder}/include")
    checked(folder, dist, room, "csicodec-portable.c")
    copy(["LICENSE", f"{dist}/NOTICE"], folder)
    pack(folder, name, f"{out}/{name}.tar.gz")


KINDS = {"tarballs": tarballs, "debian": debian, "rust": rust, "python": python, "page": page, "node": node,
         "windows": windows, "macos": macos, "portable": portable}
# The oldest cargo that reads the packages' edition.
CARGO = (1, 85)


def no_dpkg():
    return "" if shutil.which("dpkg-deb") else "no dpkg-deb in PATH (apt-get install dpkg)"


def no_cargo():
    if not shutil.which("cargo"):
        return "no cargo in PATH"
    said = run("cargo", "--version")
    found = re.match(r"cargo (\d+)\.(\d+)", said)
    # A lock file would ask a registry for serde, which is optional.
    if "--exclude-lockfile" not in run("cargo", "package", "--help"):
        return f"{said.strip()} has no `cargo package --exclude-lockfile`"
    return "" if found and (int(found[1]), int(found[2])) >= CARGO else f"cargo is {said.strip()}, and the packages take {CARGO[0]}.{CARGO[1]}"


def no_cc():
    return "" if shutil.which("cc") else "no cc in PATH"


# What says why a kind can't be made here; the others take Python alone.
LACKS = {"debian": no_dpkg, "rust": lambda: no_cargo() or portable_c.lacks(), "windows": systems.lacks, "macos": no_cc, "portable": lambda: no_cc() or portable_c.lacks()}


def not_built(kind):
    """Why a kind isn't made where it isn't asked for: what it is made of isn't here, and an hour's proofs would make it."""
    if kind not in OTHERS:
        return ""
    if not shutil.which("rt"):
        return "it is made of what is proved here, and no rt is in PATH"
    kit, sources = build.Kit(), {systems.SYSTEMS[place].source for place in OTHERS[kind]}
    missing = [it for it in sorted(sources) for name in build.MADE if not build.object_of(kit, it, name)[2]]
    return f"nothing of these sources is built for {missing[0]} (tools/release FOLDER {kind} does it)" if missing else ""


def kinds_here(asked):
    """The kinds that are made: those that are asked for, or else all that can be made here; what is left out is said."""
    lacking = {name: why for name in asked or KINDS if (why := LACKS.get(name, str)() or ("" if asked else not_built(name)))}
    if asked and lacking:
        raise Stop("\n".join(f"release: {name} can't be made: {why}" for name, why in lacking.items()))
    for name, why in lacking.items():
        print(f"release: {name} is left out: {why}", file=sys.stderr)
    return [name for name in asked or KINDS if name not in lacking]


def others_in(folder):
    """What lies in a folder that no release put there."""
    there = os.listdir(folder) if os.path.isdir(folder) else []
    return [name for name in there if not name.startswith(("csicodec", "libcsicodec")) and name != "SHA256SUMS"]


def with_systems(dist, kinds, room):
    """A folder with what dist/ holds and with the files of the other systems that these kinds are for."""
    to = f"{room}/all"
    os.mkdir(to)
    for name in os.listdir(dist):
        os.symlink(os.path.join(os.path.abspath(dist), name), f"{to}/{name}")
    places = [place for kind in kinds for place in OTHERS.get(kind, [])]
    if places:
        kit = build.Kit()
        made = build.all_objects(kit, sorted({systems.SYSTEMS[place].source for place in places}), build.MADE, False, room)
        for place in places:
            print(f"release: {place}", file=sys.stderr, flush=True)
            systems.build(kit, made, place, f"{to}/{place}", room)
    return to


# What tools/about.txt may tell.
ABOUT = ("homepage", "repository", "files", "issues", "author", "email")


def write(dist, to, kinds):
    """Makes the packages of these kinds, and SHA256SUMS, in a new folder, which then takes the place of the one at `to`."""
    lacking = [name for name in ABOUT if name not in about()]
    if lacking:
        print(f"release: note: the packages don't tell {', '.join(lacking)}, since tools/about.txt doesn't", file=sys.stderr)
    with tempfile.TemporaryDirectory(prefix=".release-", dir=os.path.dirname(to)) as room:
        out, dist = f"{room}/out", with_systems(dist, kinds, room)
        os.mkdir(out)
        for name in kinds:
            print(f"release: {name}", file=sys.stderr)
            KINDS[name](dist, out, room)
        with open(f"{out}/SHA256SUMS", "w", encoding="utf-8") as file:
            file.writelines(f"{sum_of(f'{out}/{name}')}  {name}\n" for name in sorted(os.listdir(out)) if name != "SHA256SUMS")
        if os.path.isdir(to):
            os.rename(to, f"{room}/before")
        os.rename(out, to)
