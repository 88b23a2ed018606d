"""The library that refuses memory and writes, or another that is put before the C library's functions."""
import os
import subprocess

HERE = os.path.dirname(os.path.abspath(__file__))


def built(folder, source=f"{HERE}/refuse.c"):
    """The library of this source, made in the folder. The kit's own compiler makes it, which has no headers and no start files."""
    page = subprocess.run(["rt", "doc"], capture_output=True, text=True, check=True).stdout.strip()
    library = f"{folder}/{os.path.basename(source).removesuffix('.c')}.so"
    flags = ["-O2", "-shared", "-fPIC", "-nostdlib", "-fuse-ld=lld"]
    subprocess.run([f"{os.path.dirname(page)}/toolchain/bin/clang", *flags, "-o", library, source], check=True)
    return library
