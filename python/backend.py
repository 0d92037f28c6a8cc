"""Builds the wheel of the package enc: it is Python and one library, so nothing but the standard library is needed.

`pip install ./python` calls this by pyproject.toml. The wheel carries `libenc.so`: the one that ENC_LIBRARY names,
else that in enc/, else that of dist/. It is `py3-none-manylinux2014_x86_64` where the library asks for no glibc later
than 2.17, and else `py3-none-linux_x86_64`. What METADATA says is that of pyproject.toml, which a test compares."""

import base64
import gzip
import hashlib
import io
import os
import re
import tarfile
import zipfile
from pathlib import Path

HERE = Path(__file__).resolve().parent
# The oldest glibc that manylinux2014 has (PEP 599).
GLIBC = (2, 17)
CLASSIFIERS = (
    "Development Status :: 4 - Beta",
    "Intended Audience :: Developers",
    "License :: OSI Approved :: MIT License",
    "Operating System :: POSIX :: Linux",
    "Programming Language :: C#",
    "Programming Language :: Python :: 3",
    "Programming Language :: Python :: 3 :: Only",
    "Programming Language :: Python :: Implementation :: CPython",
    "Topic :: Software Development :: Debuggers",
    "Topic :: Software Development :: Disassemblers",
    "Typing :: Typed",
)
# The project has no address yet: this is the one place for it, with pyproject.toml.
URLS = (("Homepage", "https://wazhupen.invalid/"), ("Documentation", "https://wazhupen.invalid/docs/python.md"))
AUTHOR = ("The Wazhupen authors", "wazhupen@wazhupen.invalid")
# The programs that the package installs, as those of pyproject.toml.
SCRIPTS = (("enc-tool", "enc.tool:main"),)
# What an archive of sources has beside the package.
BESIDE = ("backend.py", "make_columns.py", "make_rules.py", "pyproject.toml", "README.md")
TESTS = (
    "test.py",
    "test_installed.py",
    "test_language.py",
    "test_prepare.py",
    "test_threads.py",
    "test_tool.py",
    "testing.py",
)
EXAMPLES = ("*.dll", "*.meta", "*.il", "bank/*", "edits/*", "prepare/*", "scripts/*", "python/bank.py")
# What a wheel says of its files' date, so that two wheels of the same files are the same.
DATE = (2026, 1, 1, 0, 0, 0)


def version():
    """The version that the package says."""
    return re.search(r'__version__ = "([^"]+)"', (HERE / "enc" / "__init__.py").read_text()).group(1)


def library():
    """The bytes of libenc.so."""
    named = os.environ.get("ENC_LIBRARY")
    for path in [Path(named)] if named else [HERE / "enc" / "libenc.so", HERE.parent / "dist" / "libenc.so"]:
        if path.is_file():
            return path.read_bytes()
    raise SystemExit("there is no libenc.so: it is in dist/ of a release, and ENC_LIBRARY may name one")


def tag():
    """The tag of a wheel with this library, by the versions of glibc that it asks for."""
    asked = re.findall(rb"GLIBC_(\d+)\.(\d+)", library())
    newest = max(tuple(map(int, version)) for version in asked)
    return f"py3-none-{'manylinux2014' if newest <= GLIBC else 'linux'}_x86_64"


def above(name):
    """A file of the project that stands above this folder in a checkout, and in it in an archive of sources."""
    return next(path for path in (HERE / name, HERE.parent / name) if path.exists())


def sources():
    """The files of the package, by their names in a wheel."""
    data = [HERE / "enc" / "py.typed", *sorted((HERE / "enc").glob("report*.[cjh]*"))]
    files = sorted((HERE / "enc").glob("*.py")) + data
    return {f"enc/{path.name}": path.read_bytes() for path in files}


def metadata():
    """The METADATA of the package (Core Metadata 2.1)."""
    lines = [
        "Metadata-Version: 2.1",
        "Name: enc",
        f"Version: {version()}",
        "Summary: .NET modules and the Edit and Continue deltas that follow them",
        f"Author: {AUTHOR[0]}",
        f"Author-email: {AUTHOR[1]}",
        "License: MIT",
        "Keywords: edit-and-continue,hot-reload,metadata,pdb,debugger,profiler",
        *(f"Project-URL: {name}, {address}" for name, address in URLS),
        *(f"Classifier: {classifier}" for classifier in CLASSIFIERS),
        "Requires-Python: >=3.8",
        "Provides-Extra: report",
        "Requires-Dist: jinja2>=3; extra == 'report'",
        "Description-Content-Type: text/markdown",
        "",
        (HERE / "README.md").read_text(encoding="utf-8"),
    ]
    return "\n".join(lines).encode()


def wheel_file():
    """The file WHEEL: it isn't pure, since it carries a library."""
    return f"Wheel-Version: 1.0\nGenerator: enc\nRoot-Is-Purelib: false\nTag: {tag()}\n".encode()


def entry_points():
    """The file entry_points.txt, of which an installer makes programs."""
    return "".join(["[console_scripts]\n", *(f"{name} = {where}\n" for name, where in SCRIPTS)]).encode()


def recorded(files, name):
    """The line of RECORD of a file."""
    digest = base64.urlsafe_b64encode(hashlib.sha256(files[name]).digest()).rstrip(b"=").decode()
    return f"{name},sha256={digest},{len(files[name])}\n"


def put(archive, name, part):
    """Adds a file with a date and rights that don't change."""
    entry = zipfile.ZipInfo(name, DATE)
    entry.external_attr = (0o100755 if name.endswith(".so") else 0o100644) << 16
    entry.compress_type = zipfile.ZIP_DEFLATED
    archive.writestr(entry, part)


def wheel_of(files, folder):
    """Writes a wheel with these files, and tells its name."""
    about = f"enc-{version()}.dist-info"
    files = {**files, f"{about}/METADATA": metadata(), f"{about}/WHEEL": wheel_file()}
    files[f"{about}/entry_points.txt"] = entry_points()
    files[f"{about}/LICENSE"] = above("LICENSE").read_bytes()
    record = f"{about}/RECORD"
    files[record] = ("".join(recorded(files, name) for name in files) + f"{record},,\n").encode()
    name = f"enc-{version()}-{tag()}.whl"
    with zipfile.ZipFile(Path(folder) / name, "w") as archive:
        for path, part in files.items():
            put(archive, path, part)
    return name


def build_wheel(wheel_directory, config_settings=None, metadata_directory=None):
    """A wheel, as pip asks for it (PEP 517)."""
    return wheel_of({**sources(), "enc/libenc.so": library()}, wheel_directory)


def build_editable(wheel_directory, config_settings=None, metadata_directory=None):
    """A wheel that leads to this folder, for `pip install -e` (PEP 660)."""
    return wheel_of({"enc.pth": f"{HERE}\n".encode()}, wheel_directory)


def build_sdist(sdist_directory, config_settings=None):
    """An archive of what a wheel is made of, the library with it, and of the tests with the examples."""
    stem = f"enc-{version()}"
    files = {**sources(), "enc/libenc.so": library(), "PKG-INFO": metadata()}
    files["LICENSE"] = above("LICENSE").read_bytes()
    examples = above("examples")
    for name in BESIDE + TESTS:
        files[name] = (HERE / name).read_bytes()
    for path in sorted(path for form in EXAMPLES for path in examples.glob(form)):
        files[f"examples/{path.relative_to(examples)}"] = path.read_bytes()
    work = Path(sdist_directory) / f"{stem}.tar.gz"
    with gzip.GzipFile(work, "wb", mtime=0) as packed, tarfile.open(fileobj=packed, mode="w") as archive:
        for name, part in files.items():
            add(archive, f"{stem}/{name}", part)
    return work.name


def add(archive, name, part):
    """Adds a file to an archive."""
    entry = tarfile.TarInfo(name)
    entry.size = len(part)
    archive.addfile(entry, io.BytesIO(part))
