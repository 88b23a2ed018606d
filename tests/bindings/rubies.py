"""The gem and the plugin for Jekyll, as they are made and installed without a network, for the Ruby of this machine: their tests in ruby/,
the examples of the pages, and calls where memory is refused. Where there is no Ruby with its headers, Debian's is installed, if this may
be done here."""
import json
import os
import re
import shutil
import subprocess
import sys
import tempfile

HERE = os.path.dirname(os.path.abspath(__file__))
TOP = os.path.dirname(os.path.dirname(HERE))
sys.path += [f"{TOP}/bindings/ruby", f"{TOP}/tests/refusals", f"{TOP}/tests/bikleinu"]

import gems
from folders import random_folders
from library import built

OUT = f"{TOP}/bindings/out"
SCRIPTS = ("pages", "values", "filters", "tags", "environments", "growth", "strangers", "jekyll")
PAGES = ("bindings/ruby/README.md", "docs/use/ruby.md")
PACKAGES = ["ruby", "ruby-dev", "ruby-liquid", "jekyll", "make"]
HEADERS = 'require "rbconfig"; exit File.exist?("#{RbConfig::CONFIG["rubyhdrdir"]}/ruby.h")'
EXAMPLE = re.compile(r"^```ruby\n(.*?)^```", re.M | re.S)
SECONDS = 240


def ran(command, **options):
    try:
        done = subprocess.run(command, stdin=subprocess.DEVNULL, stdout=subprocess.PIPE, stderr=subprocess.STDOUT, encoding="utf-8", errors="replace", timeout=SECONDS, **options)
    except (OSError, subprocess.TimeoutExpired) as why:
        return str(why), 1
    return done.stdout, done.returncode


def is_there():
    """Whether this machine has a Ruby that builds extensions."""
    return all(map(shutil.which, ("ruby", "gem", "make"))) and not ran(["ruby", "-e", HEADERS])[1]


def can_be_had():
    """Whether it has one, or one can be installed."""
    if is_there():
        return True
    if os.geteuid() or not shutil.which("apt-get"):
        return False
    env = {**os.environ, "DEBIAN_FRONTEND": "noninteractive"}
    words = ["apt-get", "install", "--yes", "--quiet", "--no-install-recommends", "-o", "DPkg::Lock::Timeout=60"]
    return not ran([*words, *PACKAGES], env=env)[1] and is_there()


def counted(command, env):
    """How many checks of a script pass, and what the others say. What it says of this machine is printed."""
    printed, status = ran(command, env=env)
    *lines, last = printed.strip().splitlines() or [""]
    for line in lines:
        if line.startswith("bindings: "):
            print(line)
    lines = [line for line in lines if not line.startswith("bindings: ")]
    words = last.split()
    if status or len(words) != 4 or words[1::2] != ["passed,", "failed"]:
        return 0, [f"{os.path.basename(command[-1])}: status {status}: {printed[-2000:]}"]
    return int(words[0]), lines


def examples(env):
    """Each example of the pages, as a program of its own after those before it."""
    passed, wrong = 0, []
    for path in PAGES:
        with open(f"{TOP}/{path}", encoding="utf-8") as file:
            found = EXAMPLE.findall(file.read())
        printed, status = ran(["ruby", "-W0", "-r", "bikleinu", "-e", "\n".join(found)], env=env)
        passed += not status
        wrong += [f"the examples of {path}: {printed[-1000:]}"] if status or not found else []
    return passed, wrong


def is_read(made, line):
    """Whether a folder was read as the program reads it (tests/bikleinu/folders.py), by the line that Ruby prints of it."""
    found = json.loads(line or "0")
    if made.refused:
        return found is None
    names = {*made.texts, *(inner.rpartition(".")[0] for inner in made.texts if "." in inner)}
    return found == [sorted(names), made.lines(made.path)]


def odd_folders(env):
    """Folders that are made at random are read as the program reads them."""
    command, wrong = ["ruby", "-W1", f"{HERE}/ruby/folders.rb"], []
    with subprocess.Popen(command, env=env, stdin=subprocess.PIPE, stdout=subprocess.PIPE, encoding="utf-8") as ruby:
        for number, _, made in random_folders():
            ruby.stdin.write(f"{made.path}\n")
            ruby.stdin.flush()
            if not is_read(made, ruby.stdout.readline()):
                wrong.append(number)
        ruby.stdin.close()
    return (0, [f"the folders {wrong}"]) if wrong else (1, [])


def of_ruby():
    """How many checks of the gem pass, and what isn't well."""
    if not can_be_had():
        print("bindings: there is no Ruby with its headers on this machine (Debian's ruby and ruby-dev), and it can't be installed, so the gem isn't tested")
        return 0, []
    with tempfile.TemporaryDirectory() as room:
        try:
            made = [gems.whole_gem(room, os.environ.get("BIKLEINU_FOLDER") or OUT), gems.plugin_gem(room)]
        except (OSError, RuntimeError) as why:
            return 0, [str(why)]
        env = {name: word for name, word in os.environ.items() if not name.startswith(("BIKLEINU", "BUNDLE", "GEM", "RUBY"))}
        env = {**env, "GEM_HOME": f"{room}/gems", "LANG": "C.UTF-8"}
        printed, status = ran(["gem", "install", "--local", "--no-document", "--ignore-dependencies", *made], env=env)
        if status:
            return 0, [f"gem install: {printed[-2000:]}"]
        parts = [counted(["ruby", "-W1", f"{HERE}/ruby/{name}.rb"], env) for name in SCRIPTS]
        starving = {**env, "LD_PRELOAD": built(room), "REFUSE_AT": "0"}
        parts += [counted(["ruby", "-W1", f"{HERE}/ruby/starved.rb"], starving), examples(env), odd_folders(env)]
    passed, wrong = zip(*parts)
    return sum(passed), [line for lines in wrong for line in lines]
