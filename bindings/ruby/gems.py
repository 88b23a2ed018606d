#!/usr/bin/env python3
"""Makes the gem, with the library for C in it, and the plugin for Jekyll: bindings/ruby/gems.py [FOLDER]

After bindings/build: the gems, which `gem install --local` takes without a network, in bindings/out or FOLDER. BIKLEINU_FOLDER names another
folder with the library, and perhaps its header. It needs Ruby's gem; to install the gem needs Ruby's headers (Debian's ruby-dev) and a
C compiler. The gems are the same byte for byte wherever they are made; their times are those of SOURCE_DATE_EPOCH, or of 1980.
"""
import os
import re
import shutil
import subprocess
import sys
import tempfile

HERE = os.path.dirname(os.path.abspath(__file__))
TOP = os.path.dirname(os.path.dirname(HERE))
PLUGIN = f"{TOP}/bindings/jekyll"
NAME, ARCHIVE, HEADER = "bikleinu", "libbikleinu.a", "bikleinu.h"
EARLIEST = 315532800


def version():
    """The version that the gem says it is."""
    with open(f"{HERE}/lib/{NAME}/version.rb", encoding="utf-8") as file:
        return re.search(r"VERSION = '(.*)'", file.read())[1]


def place(name, *folders):
    """Where a file stands, in the first of these folders that has it."""
    return next((f"{it}/{name}" for it in folders if os.path.exists(f"{it}/{name}")), None)


def put_together(room, archive, header):
    """Puts the gem's files into a folder."""
    shutil.copytree(f"{HERE}/lib", f"{room}/lib")
    shutil.copytree(f"{HERE}/ext", f"{room}/ext", ignore=shutil.ignore_patterns("*.o", "*.so", "Makefile", "mkmf.log"))
    for path, to in ((f"{HERE}/{NAME}.gemspec", ""), (f"{HERE}/README.md", ""), (f"{TOP}/LICENSE", "")):
        shutil.copy(path, f"{room}/{to}")
    shutil.copy(archive, f"{room}/ext/{NAME}/{ARCHIVE}")
    shutil.copy(header, f"{room}/ext/{NAME}/{HEADER}")


def built(room, folder, epoch):
    """Builds the gem whose files stand in a room, and puts it into a folder."""
    for at, _, names in os.walk(room):
        for name in names:
            os.chmod(f"{at}/{name}", 0o644)
    spec = next(it for it in os.listdir(room) if it.endswith(".gemspec"))
    env = {**os.environ, "SOURCE_DATE_EPOCH": str(epoch)}
    ran = subprocess.run(["gem", "build", "--quiet", spec], cwd=room, env=env, stdin=subprocess.DEVNULL, capture_output=True, text=True)
    found = [it for it in os.listdir(room) if it.endswith(".gem")]
    if ran.returncode or not found:
        raise RuntimeError(f"gem build ended with status {ran.returncode}: {ran.stderr[-2000:]}")
    return shutil.copy(f"{room}/{found[0]}", folder)


def whole_gem(folder, library, epoch=EARLIEST):
    """Makes the gem in a folder, with the library of another folder, and answers its path; None where there is no gem on this machine."""
    if not shutil.which("gem"):
        return None
    archive, header = f"{library}/{ARCHIVE}", place(HEADER, library, f"{TOP}/include")
    with tempfile.TemporaryDirectory() as room:
        put_together(room, archive, header)
        return built(room, folder, epoch)


def plugin_gem(folder, epoch=EARLIEST):
    """Makes the plugin for Jekyll in a folder, and answers its path; None where there is no gem on this machine."""
    if not shutil.which("gem"):
        return None
    with tempfile.TemporaryDirectory() as room:
        shutil.copytree(PLUGIN, room, dirs_exist_ok=True, ignore=shutil.ignore_patterns(".rubocop.yml", "*.gem"))
        shutil.copy(f"{TOP}/LICENSE", room)
        return built(room, folder, epoch)


def main():
    out = f"{TOP}/bindings/out"
    library = os.environ.get("BIKLEINU_FOLDER") or out
    if not os.path.exists(f"{library}/{ARCHIVE}"):
        print(f"{NAME}: the library {ARCHIVE} isn't built: run bindings/build at the top of the repository first", file=sys.stderr)
        return 1
    epoch = int(os.environ.get("SOURCE_DATE_EPOCH") or EARLIEST)
    try:
        folder = sys.argv[1] if len(sys.argv) > 1 else out
        made = [whole_gem(folder, library, epoch), plugin_gem(folder, epoch)]
    except (OSError, RuntimeError) as why:
        print(f"{NAME}: {why}", file=sys.stderr)
        return 1
    if not all(made):
        print(f"{NAME}: there is no gem on this machine (Debian's ruby has it)", file=sys.stderr)
        return 1
    print(*map(os.path.relpath, made), sep="\n")
    return 0


if __name__ == "__main__":
    sys.exit(main())
