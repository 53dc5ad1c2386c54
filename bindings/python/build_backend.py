"""Builds the package with pip: the Python module, and the shared library that it calls.

A build backend of PEP 517 that needs nothing but Python, so that `pip install` needs no network: the setuptools of many
machines cannot make a wheel alone. The shared library is, in this order,

1. what the environment variable INTERVALLUM_LIBRARY names: a shared library, or a static one, which `cc` links;
2. made by `make -C bindings/c` of the library that was proved, if it is there;
3. built by Cargo from `bindings/rust/c`, the proved source as plain Rust.
"""

import base64
import ctypes
import hashlib
import io
import os
import re
import shutil
import subprocess
import sys
import sysconfig
import tarfile
import tempfile
import zipfile

HERE = os.path.dirname(os.path.abspath(__file__))
TOP = os.path.dirname(os.path.dirname(HERE))
MODULES = ("__init__", "_calls", "_dates", "_forms", "_given", "_handles", "_model", "_mutable", "_runs")
SOURCES = (*("intervallum/%s.py" % name for name in MODULES), "intervallum/py.typed")
LIBRARY = "intervallum/libintervallum.so"
LICENSES = ("LICENSE-APACHE", "LICENSE-MIT")
# what an archive of the sources has of bindings/rust, in its folder `rust`
CRATE = ("Cargo.toml", "build.rs", "src", "c/Cargo.toml", "c/src")


def _read(path):
    with open(path, "rb") as file:
        return file.read()


def _project():
    """The texts of pyproject.toml by their keys. Python has a reader of TOML only since 3.11."""
    text = _read(os.path.join(HERE, "pyproject.toml")).decode()
    project = dict(re.findall(r'(?m)^([\w-]+) = "([^"]*)"$', text))
    project["keywords"] = ",".join(re.findall(r'"([^"]*)"', re.search(r"(?m)^keywords = (.*)$", text).group(1)))
    project["classifiers"] = "".join("Classifier: %s\n" % one for one in re.findall(r'(?m)^    "(.* :: .*)",$', text))
    return project


def _metadata():
    project = _project()
    about = re.match(r'"""(.*?)"""', _read(os.path.join(HERE, SOURCES[0])).decode(), re.S).group(1)
    return (
        "Metadata-Version: 2.1\nName: %(name)s\nVersion: %(version)s\nSummary: %(description)s\nLicense: %(license)s\n"
        "Keywords: %(keywords)s\nRequires-Python: %(requires-python)s\n%(classifiers)sDescription-Content-Type: text/plain\n\n" % project
        + about
    ).encode()


def _licenses():
    """The licenses, which an archive of the sources has beside this file."""
    found = [(name, os.path.join(folder, name)) for name in LICENSES for folder in (HERE, TOP)]
    return {name: _read(path) for name, path in found if os.path.exists(path)}


# ---- the shared library


def _run(what, *command):
    """Runs a command, and says what it said if it fails."""
    ended = subprocess.run(command, stdout=subprocess.PIPE, stderr=subprocess.STDOUT, text=True)
    if ended.returncode:
        raise SystemExit("intervallum: %s failed: %s\n%s" % (what, " ".join(command), ended.stdout))


def _linked(static, out):
    whole = ["-Wl,-force_load," + static] if sys.platform == "darwin" else ["-Wl,--whole-archive", static, "-Wl,--no-whole-archive"]
    _run("the C compiler", os.environ.get("CC", "cc"), "-shared", "-o", out, *whole)


def _crate():
    """The folder of the crate for C: in the repository, or in an archive of the sources."""
    for folder in (os.path.join(HERE, "rust/c"), os.path.join(TOP, "bindings/rust/c")):
        if os.path.exists(os.path.join(folder, "Cargo.toml")):
            return folder
    return None


def _made(out, work):
    """Makes the shared library, and says of what."""
    named = os.environ.get("INTERVALLUM_LIBRARY")
    if named:
        if not os.path.exists(named):
            raise SystemExit("intervallum: INTERVALLUM_LIBRARY names %s, which is not there" % named)
        _linked(named, out) if named.endswith(".a") else shutil.copyfile(named, out)
        return named
    proved = os.path.join(TOP, "crates/ivl_c/out/libivl_c.a")
    # make takes a library of the kit's beside the proved one
    if os.path.exists(proved) and all(map(shutil.which, ("make", "cc", "rt"))):
        _run("make", "make", "-s", "-C", os.path.join(TOP, "bindings/c"), "libintervallum.so")
        shutil.copyfile(os.path.join(TOP, "bindings/c/libintervallum.so"), out)
        return proved
    crate = _crate()
    if crate and shutil.which("cargo"):
        manifest = os.path.join(crate, "Cargo.toml")
        _run("Cargo", "cargo", "build", "--release", "--offline", "--manifest-path", manifest, "--target-dir", work)
        names = ["libintervallum_c.so", "libintervallum_c.dylib", "intervallum_c.dll"]
        built = [os.path.join(work, "release", name) for name in names]
        shutil.copyfile(next(filter(os.path.exists, built)), out)
        return crate
    raise SystemExit(
        "intervallum: there is nothing to make the shared library of. One of these is needed:\n"
        "  cargo, from https://rustup.rs, which builds it from bindings/rust/c\n"
        "  the Rattle kit and cc: `make -C bindings/c` proves the library and makes it\n"
        "  INTERVALLUM_LIBRARY=FILE, a library of these calls that is there, shared or static (static needs cc)"
    )


def _library():
    """The bytes of the shared library, which has been loaded once."""
    with tempfile.TemporaryDirectory() as work:
        out = os.path.join(work, os.path.basename(LIBRARY))
        origin = _made(out, os.path.join(work, "target"))
        try:
            ctypes.CDLL(out).ivl_normalize_i64
        except (OSError, AttributeError) as error:
            raise SystemExit("intervallum: the library made of %s cannot be used: %s" % (origin, error)) from None
        print("intervallum: the shared library is made of %s" % origin)
        return _read(out)


# ---- what pip calls


def _platform(library):
    """The platform of a shared library: with glibc, the least version of it that has what the library calls."""
    own = re.sub(r"[-.]", "_", sysconfig.get_platform())
    versions = [int(number) for number in re.findall(rb"\0GLIBC_2\.(\d+)(?:\.\d+)?(?=\0)", library)]
    if not own.startswith("linux_") or not versions:
        return own
    return own.replace("linux", "manylinux_2_%d" % max(17, *versions), 1)


def _wheel(folder, files, library):
    project = _project()
    name = "%s-%s" % (project["name"].replace("-", "_"), project["version"])
    tag = "py3-none-" + _platform(library)
    info = name + ".dist-info/"
    files = {**files, info + "METADATA": _metadata()}
    files[info + "WHEEL"] = ("Wheel-Version: 1.0\nGenerator: intervallum\nRoot-Is-Purelib: false\nTag: %s\n" % tag).encode()
    files.update({info + license: text for license, text in _licenses().items()})
    digests = {path: base64.urlsafe_b64encode(hashlib.sha256(text).digest()).decode().rstrip("=") for path, text in files.items()}
    record = ["%s,sha256=%s,%d" % (path, digests[path], len(text)) for path, text in files.items()]
    files[info + "RECORD"] = "\n".join(record + [info + "RECORD,,", ""]).encode()
    wheel = "%s-%s.whl" % (name, tag)
    with zipfile.ZipFile(os.path.join(folder, wheel), "w", zipfile.ZIP_DEFLATED) as archive:
        for path, text in files.items():
            # the same files give the same wheel
            archive.writestr(zipfile.ZipInfo(path, (1980, 1, 1, 0, 0, 0)), text, zipfile.ZIP_DEFLATED)
    return wheel


def build_wheel(wheel_directory, config_settings=None, metadata_directory=None):
    files = {path: _read(os.path.join(HERE, path)) for path in SOURCES}
    made = _library()
    return _wheel(wheel_directory, {**files, LIBRARY: made}, made)


def build_editable(wheel_directory, config_settings=None, metadata_directory=None):
    """The module stays where it is, and the shared library is put beside it."""
    made = _library()
    with open(os.path.join(HERE, LIBRARY), "wb") as file:
        file.write(made)
    return _wheel(wheel_directory, {"intervallum_proved.pth": HERE.encode()}, made)


def build_sdist(sdist_directory, config_settings=None):
    project = _project()
    name = "%s-%s" % (project["name"].replace("-", "_"), project["version"])
    crate = os.path.dirname(_crate())
    files = {path: _read(os.path.join(HERE, path)) for path in (*SOURCES, "pyproject.toml", "build_backend.py", "leases.py", "tests/test_intervallum.py")}
    files.update(_licenses())
    for part in CRATE:
        for path in _files(os.path.join(crate, part)):
            files["rust/" + os.path.relpath(path, crate)] = _read(path)
    # the tests and examples that the manifest names are not there
    manifest = files["rust/Cargo.toml"].decode()
    files["rust/Cargo.toml"] = re.sub(r"(?ms)^\[\[(?:example|test)\]\]\n.*?(?=^\[|\Z)", "", manifest).encode()
    files["PKG-INFO"] = _metadata()
    with tarfile.open(os.path.join(sdist_directory, name + ".tar.gz"), "w:gz") as archive:
        for path, text in sorted(files.items()):
            entry = tarfile.TarInfo("%s/%s" % (name, path))
            entry.size = len(text)
            archive.addfile(entry, io.BytesIO(text))
    return name + ".tar.gz"


def _files(path):
    if os.path.isfile(path):
        return [path]
    return [os.path.join(folder, file) for folder, _, files in os.walk(path) for file in files]
