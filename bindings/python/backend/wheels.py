"""Makes wheels of the package, with the library for C in them: for pip, which calls the functions below by PEP 517 and 660, and for
tools/package. A wheel is the same byte for byte wherever it is made; its times are those of SOURCE_DATE_EPOCH, or of 1980."""
import base64
import gzip
import hashlib
import io
import os
import re
import sys
import tarfile
import time
import zipfile

HERE = os.path.dirname(os.path.dirname(os.path.abspath(__file__)))
NAME, MACHINE, LIBRARY = "bikleinu", "x86_64", "libbikleinu.so"
SUMMARY = "Liquid templates, every rule proved"
# the oldest glibc that wheels speak of
OLDEST_GLIBC = (2, 17)
EARLIEST = 315532800
# what a source of the package holds besides the package itself
SOURCES = ("README.md", "pyproject.toml", "backend/wheels.py")


def bytes_of(path):
    with open(path, "rb") as file:
        return file.read()


def version():
    """The version that the package tells."""
    return re.search(r'^__version__ = "(.*)"$', bytes_of(f"{HERE}/{NAME}/__init__.py").decode(), re.M)[1]


def glibc_of(*all_bytes):
    """The version of glibc that these programs and libraries need at least."""
    found = (it for data in all_bytes for it in re.findall(rb"GLIBC_(\d+)\.(\d+)", data))
    return max((int(major), int(minor)) for major, minor in found)


def platforms(library):
    """The names of the machines that can load the library, the best one first."""
    glibc = max(glibc_of(library), OLDEST_GLIBC)
    named = [f"manylinux_{glibc[0]}_{glibc[1]}_{MACHINE}"]
    return named + ([f"manylinux2014_{MACHINE}"] if glibc == OLDEST_GLIBC else [])


def built_library():
    """The library: what BIKLEINU_LIBRARY names, in the package itself, or where bindings/build puts it."""
    named = os.environ.get("BIKLEINU_LIBRARY")
    for path in [named] if named else [f"{HERE}/{NAME}/{LIBRARY}", f"{HERE}/../out/{LIBRARY}"]:
        if os.path.exists(path):
            return bytes_of(path)
    print(
        f"{NAME}: the library {LIBRARY} isn't built: run bindings/build at the top of the repository first, or let the variable "
        "BIKLEINU_LIBRARY name the library",
        file=sys.stderr,
    )
    raise SystemExit(1)


def modules():
    """The package's own files, by their paths in a wheel."""
    names = sorted(it for it in os.listdir(f"{HERE}/{NAME}") if it.endswith((".py", ".typed")))
    return {f"{NAME}/{it}": bytes_of(f"{HERE}/{NAME}/{it}") for it in names}


def licence():
    """The licence, which stands at the top of the repository, or in a source of the package beside it."""
    return next((bytes_of(it) for it in (f"{HERE}/LICENSE", f"{HERE}/../../LICENSE") if os.path.exists(it)), b"")


def metadata():
    head = f"Metadata-Version: 2.1\nName: {NAME}\nVersion: {version()}\nSummary: {SUMMARY}\nLicense: MIT\n"
    head += "Requires-Python: >=3.8\nClassifier: Typing :: Typed\nDescription-Content-Type: text/markdown\n\n"
    return head.encode() + bytes_of(f"{HERE}/README.md")


def record(files, itself):
    """The list of a wheel's files, with their sums."""
    lines = []
    for path, data in files.items():
        summed = base64.urlsafe_b64encode(hashlib.sha256(data).digest()).rstrip(b"=").decode()
        lines.append(f"{path},sha256={summed},{len(data)}\n")
    return "".join([*lines, f"{itself},,\n"]).encode()


def write_wheel(folder, files, tags, epoch=EARLIEST):
    """Writes a wheel of these files, and answers its name."""
    about = f"{NAME}-{version()}.dist-info"
    tag_lines = "".join(f"Tag: py3-none-{it}\n" for it in tags)
    files = {
        **files,
        f"{about}/METADATA": metadata(),
        f"{about}/WHEEL": f"Wheel-Version: 1.0\nGenerator: {NAME}\nRoot-Is-Purelib: false\n{tag_lines}".encode(),
        f"{about}/LICENSE": licence(),
    }
    files[f"{about}/RECORD"] = record(files, f"{about}/RECORD")
    name = f"{NAME}-{version()}-py3-none-{'.'.join(tags)}.whl"
    when = time.gmtime(max(epoch, EARLIEST))[:6]
    with zipfile.ZipFile(f"{folder}/{name}", "w", zipfile.ZIP_DEFLATED, compresslevel=9) as archive:
        for path, data in files.items():
            one = zipfile.ZipInfo(path, when)
            one.create_system, one.external_attr = 3, 0o100644 << 16
            one.compress_type = zipfile.ZIP_DEFLATED
            archive.writestr(one, data)
    return name


def whole_wheel(folder, library, epoch=EARLIEST):
    """Writes the wheel with the library in it, and answers its name."""
    return write_wheel(folder, {**modules(), f"{NAME}/{LIBRARY}": library}, platforms(library), epoch)


def asked_epoch():
    return int(os.environ.get("SOURCE_DATE_EPOCH") or EARLIEST)


def build_wheel(wheel_directory, config_settings=None, metadata_directory=None):
    return whole_wheel(wheel_directory, built_library(), asked_epoch())


def build_editable(wheel_directory, config_settings=None, metadata_directory=None):
    """A wheel that leads to this folder, whose library is the one that was built last."""
    library = built_library()
    return write_wheel(wheel_directory, {f"{NAME}.pth": f"{HERE}\n".encode()}, platforms(library), asked_epoch())


def build_sdist(sdist_directory, config_settings=None):
    """The package with the library, which no compiler makes of its sources alone."""
    top = f"{NAME}-{version()}"
    files = {**modules(), f"{NAME}/{LIBRARY}": built_library(), "PKG-INFO": metadata(), "LICENSE": licence()}
    files.update((path, bytes_of(f"{HERE}/{path}")) for path in SOURCES)
    with open(f"{sdist_directory}/{top}.tar.gz", "wb") as file, gzip.GzipFile("", "wb", 9, file, 0) as packed:
        with tarfile.open(fileobj=packed, mode="w", format=tarfile.PAX_FORMAT) as archive:
            for path, data in sorted(files.items()):
                one = tarfile.TarInfo(f"{top}/{path}")
                one.mtime, one.size = asked_epoch(), len(data)
                archive.addfile(one, io.BytesIO(data))
    return f"{top}.tar.gz"
