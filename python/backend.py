"""Makes the wheels, with nothing but Python: `pip wheel .` calls it (PEP 517), and the repository's tools/release. The library and the
program for each machine lie in dist/ beside this file, as the sources of a release have them."""
import base64
import hashlib
import os
import platform
import posixpath
import re
import time
import zipfile

HERE = os.path.dirname(os.path.abspath(__file__))
# The folder of dist/ for each machine, and its names in a wheel's. The shared library asks for no newer call of C than these have.
PLACES = {
    "x86_64-linux": "manylinux2014_x86_64.manylinux_2_17_x86_64.musllinux_1_1_x86_64",
    "aarch64-linux": "manylinux2014_aarch64.manylinux_2_17_aarch64.musllinux_1_1_aarch64",
    "x86_64-windows": "win_amd64",
}
# The names of the library and of the program, and those of Windows.
FILES, WINDOWS_FILES = ("libcsicodec.so", "csicodec"), ("csicodec.dll", "csicodec.exe")
CLASSIFIERS = [
    "Development Status :: 5 - Production/Stable",
    "Intended Audience :: Developers",
    "License :: OSI Approved :: MIT License",
    "Operating System :: Microsoft :: Windows",
    "Operating System :: POSIX :: Linux",
    "Programming Language :: Python :: 3 :: Only",
    *(f"Programming Language :: Python :: 3.{minor}" for minor in range(9, 14)),
    "Topic :: Software Development :: Libraries",
    "Topic :: System :: Logging",
    "Topic :: Terminals",
    "Topic :: Text Processing :: Filters",
    "Typing :: Typed",
]


def version():
    with open(f"{HERE}/csicodec/__init__.py", encoding="utf-8") as file:
        return re.search(r'^__version__ = "(.*)"$', file.read(), re.M)[1]


def about():
    """What is told of the project, of tools/about.txt or of its copy beside this file: what is empty isn't."""
    path = next(path for path in (f"{HERE}/about.txt", f"{HERE}/../tools/about.txt") if os.path.exists(path))
    with open(path, encoding="utf-8") as file:
        pairs = [line.strip().partition(":") for line in file if not line.startswith("#")]
    return {name: value.strip() for name, _, value in pairs if value.strip()}


def packed(page, folder, files, there=()):
    """A page as a package has it. What it links to lies in the repository, from the folder of the page: a link has its whole address below `files`,
    where that is known, and is else its words alone; a picture is left out there. What is at the top of the repository and `there` is in the
    package too, at the same place.

    >>> packed("![p](b.svg) [a](../docs/A.md#b), [c](#c), [d](https://d/)", "python", "https://h/x")
    '![p](https://h/x/python/b.svg) [a](https://h/x/docs/A.md#b), [c](#c), [d](https://d/)'
    >>> packed("![p](b.svg) [a](../docs/A.md#b), [c](#c), [d](https://d/)", "python", "")
    ' a, [c](#c), [d](https://d/)'
    >>> packed("[a](../docs/A.md#b), [e](../E.md)", "python", "", ["docs"])
    '[a](../docs/A.md#b), e'
    """
    def linked(found):
        before, words, to = found.groups()
        if re.match(r"[a-z]+:|#", to) or posixpath.normpath(posixpath.join(folder, to.partition("#")[0])).split("/")[0] in there:
            return found[0]
        if not files:
            return "" if before else words
        return f"{before}[{words}]({files.rstrip('/')}/{posixpath.normpath(posixpath.join(folder, to))})"

    page = re.sub(r"<picture>.*?<img src=\"([^\"]*)\" alt=\"([^\"]*)\">.*?</picture>\n*", r"![\2](\1)\n\n", page, flags=re.S)
    return re.sub(r"\n{3,}", "\n\n", re.sub(r"(!?)\[([^]]*)\]\(([^)\s]+)\)", linked, page))


def metadata():
    """What the packages tell of themselves, with the README as their description."""
    told = about()
    with open(f"{HERE}/README.md", encoding="utf-8") as file:
        readme = packed(file.read(), "python", told.get("files", ""))
    fields = [
        "Metadata-Version: 2.1",
        "Name: csicodec",
        f"Version: {version()}",
        "Summary: Strip, clean, parse and explain ANSI escape codes of terminals, as typed actions, over a proved library",
        *(f"{field}: {told[name]}" for name, field in [("author", "Author"), ("email", "Author-email")] if name in told),
        *(f"Project-URL: {name.capitalize()}, {told[name]}" for name in ("homepage", "repository", "issues") if name in told),
        "License: MIT",
        f"Keywords: {told['keywords'].replace(', ', ',')}",
        "Requires-Python: >=3.9",
        *(f"Classifier: {classifier}" for classifier in CLASSIFIERS),
        "Description-Content-Type: text/markdown",
    ]
    return "\n".join(fields) + "\n\n" + readme


def write_wheel(dist, place, folder, licences, epoch):
    """Writes the wheel for a place, with what dist/ has for it, and answers its name. A wheel is a zip with a list of its files."""
    info, files = f"csicodec-{version()}.dist-info", {}
    for name in sorted(os.listdir(f"{HERE}/csicodec")):
        if name.endswith((".py", ".typed")):
            files[f"csicodec/{name}"] = (f"{HERE}/csicodec/{name}", 0o644)
    library, program = WINDOWS_FILES if place.endswith("windows") else FILES
    files[f"csicodec/{library}"] = (f"{dist}/{place}/{library}", 0o755)
    files[f"csicodec-{version()}.data/scripts/{program}"] = (f"{dist}/{place}/{program}", 0o755)
    for path in licences:
        files[f"{info}/licenses/{os.path.basename(path)}"] = (path, 0o644)
    held = {}
    for name, (path, mode) in files.items():
        with open(path, "rb") as file:
            held[name] = (file.read(), mode)
    tags = PLACES[place].split(".")
    told = ["Wheel-Version: 1.0", "Generator: csicodec", "Root-Is-Purelib: false", *(f"Tag: py3-none-{tag}" for tag in tags)]
    held[f"{info}/METADATA"] = (metadata().encode(), 0o644)
    held[f"{info}/WHEEL"] = ("\n".join(told).encode() + b"\n", 0o644)
    lines = [f"{name},sha256={base64.urlsafe_b64encode(hashlib.sha256(it).digest()).rstrip(b'=').decode()},{len(it)}" for name, (it, _) in held.items()]
    held[f"{info}/RECORD"] = ("\n".join([*lines, f"{info}/RECORD,,"]).encode() + b"\n", 0o644)
    made = f"csicodec-{version()}-py3-none-{PLACES[place]}.whl"
    with zipfile.ZipFile(f"{folder}/{made}", "w", zipfile.ZIP_DEFLATED, compresslevel=9) as packed:
        for name, (it, mode) in held.items():
            put_in(packed, name, it, mode, epoch)
    return made


def put_in(packed, name, held, mode, epoch):
    """Puts a file into a zip, the same bytes each time."""
    entry = zipfile.ZipInfo(name, time.gmtime(epoch)[:6])
    entry.compress_type, entry.external_attr = zipfile.ZIP_DEFLATED, (0o100000 | mode) << 16
    packed.writestr(entry, held, compresslevel=9)


def build_wheel(wheel_directory, config_settings=None, metadata_directory=None):
    place = {"x86_64": "x86_64-linux", "amd64": "x86_64-linux", "aarch64": "aarch64-linux", "arm64": "aarch64-linux"}.get(platform.machine().lower())
    if platform.system() != "Linux" or not place:
        raise SystemExit(f"csicodec is for Linux on x86_64 and aarch64, and not for {platform.system()} on {platform.machine()}")
    epoch = int(os.environ.get("SOURCE_DATE_EPOCH") or os.path.getmtime(f"{HERE}/csicodec/__init__.py"))
    return write_wheel(f"{HERE}/dist", place, wheel_directory, [f"{HERE}/LICENSE", f"{HERE}/NOTICE"], epoch)


def build_sdist(sdist_directory, config_settings=None):
    raise SystemExit("csicodec: the repository's tools/release makes the sources")
