"""Folders with whatever may stand in one: what is no text of the folder is left out, in a line, and `render`, `check`, `paths` and
`merge` agree on the rest. Folders that are made at random are for the package for Python too."""
import os
import random
import socket
import stat
import subprocess
import tempfile

FOLDERS, SEED = 60, 29_11
IMAGE, NO_UTF8 = b"\x89PNG\0\xff", b"a\nb\xff"
NOT_UTF8 = "the file isn't UTF-8: line 2, column 2; save it as UTF-8"


class Folder:
    """A folder that is filled, and what must be seen of it."""

    def __init__(self, path):
        self.path = path
        # the texts by their paths in it, what is left out and why, and what isn't UTF-8 and so refused
        self.texts, self.left_out, self.refused = {}, {}, set()
        # what is another name of a file: `check` looks at it once, by the name that comes first
        self.others = set()
        os.mkdir(path)

    def at(self, inner):
        os.makedirs(os.path.dirname(f"{self.path}/{inner}"), exist_ok=True)
        return f"{self.path}/{inner}"

    def put(self, inner, content):
        with open(self.at(inner), "wb") as file:
            file.write(content)

    def text(self, inner, source="text"):
        self.put(inner, source.encode())
        self.texts[inner] = source

    def image(self, inner):
        self.put(inner, IMAGE)
        self.left_out[inner] = "is no text: it has a byte 0"

    def no_utf8(self, inner):
        self.put(inner, NO_UTF8)
        self.refused.add(inner)

    def hidden(self, inner):
        folder, _, name = inner.rpartition("/")
        self.put(f"{folder}/.{name}".lstrip("/"), NO_UTF8)
        os.mkfifo(self.at(f"{folder}/.{name}.pipe".lstrip("/")))
        self.put(f"{folder}/.{name}.d/x".lstrip("/"), NO_UTF8)

    def pipe(self, inner):
        os.mkfifo(self.at(inner))
        self.left_out[inner] = "is a pipe"

    def socket(self, inner):
        with socket.socket(socket.AF_UNIX) as made:
            # the path of a socket is short
            there, here = os.path.split(self.at(inner))
            before = os.getcwd()
            os.chdir(there)
            made.bind(here)
            os.chdir(before)
        self.left_out[inner] = "is a socket"

    def device(self, inner):
        """As root alone may make one."""
        if os.geteuid() == 0:
            os.mknod(self.at(inner), stat.S_IFCHR | 0o666, os.makedev(1, 3))
            self.left_out[inner] = "is a device"

    def odd_name(self, inner):
        folder = os.path.dirname(self.at(inner))
        with open(os.fsencode(folder) + b"/caf\xe9" + os.fsencode(os.path.basename(inner)), "wb") as file:
            file.write(b"x")
        self.left_out[os.path.dirname(inner)] = None

    def link(self, inner, target, why=None):
        os.symlink(target, self.at(inner))
        if why:
            self.left_out[inner] = f"is a link that leads {why}"

    def link_nowhere(self, inner):
        self.link(inner, "nowhere", "nowhere")

    def link_to_itself(self, inner):
        self.link(inner, os.path.basename(inner), "nowhere")

    def link_out(self, inner):
        self.link(inner, f"{os.path.dirname(self.path)}/outside", "out of the folder")

    def link_to_device(self, inner):
        self.link(inner, "/dev/zero", "out of the folder")

    def link_up(self, inner):
        self.link(inner, os.path.dirname(self.path), "out of the folder")

    def link_to_text(self, inner):
        self.text(f"{inner}.target", "through")
        self.link(inner, f"{os.path.basename(inner)}.target")
        self.texts[inner] = "through"
        self.others.add(f"{inner}.target")

    def link_to_image(self, inner):
        self.image(f"{inner}.target")
        self.link(inner, f"{os.path.basename(inner)}.target")
        self.left_out[inner] = self.left_out[f"{inner}.target"]
        self.others.add(f"{inner}.target")

    def link_to_pipe(self, inner):
        self.pipe(f"{inner}.target")
        self.link(inner, f"{os.path.basename(inner)}.target")
        self.left_out[inner] = "is a pipe"

    def link_to_folder(self, inner):
        self.link(inner, os.path.abspath(self.path))

    def lines(self, path, is_check=False):
        """What must be reported, if the folder is called by this path."""
        return sorted(
            f"left out: a name in {f'{path}/{inner}'.rstrip('/')} isn't UTF-8" if why is None else f"left out: {path}/{inner} {why}"
            for inner, why in self.left_out.items()
            if not (is_check and inner in self.others)
        )

    def errors(self, path):
        return [f"error: {path}/{inner}: {NOT_UTF8}" for inner in sorted(self.refused)]


ODD = (
    Folder.image, Folder.pipe, Folder.socket, Folder.device, Folder.odd_name, Folder.hidden, Folder.no_utf8, Folder.link_nowhere,
    Folder.link_to_itself, Folder.link_out, Folder.link_to_device, Folder.link_up, Folder.link_to_text, Folder.link_to_image,
    Folder.link_to_pipe, Folder.link_to_folder,
)
NAMES = ("{}", "{}.liquid", "{}.html~", "#{}#", "sub/{}.liquid", "sub/more/{}")


def random_folder(path, choices):
    """A folder of up to a dozen things, of which some are texts."""
    made = Folder(path)
    for number in range(choices.randrange(12)):
        put = choices.choice(ODD) if choices.random() < 0.6 else Folder.text
        # a file that is refused hides what comes after it, so it is rare
        if put is Folder.no_utf8 and choices.random() < 0.7:
            put = Folder.text
        put(made, choices.choice(NAMES).format(f"n{number}"))
    return made


def random_folders():
    """The folders by their numbers, each in a room of its own with what a link leads to that leads out."""
    choices = random.Random(SEED)
    for number in range(FOLDERS):
        with tempfile.TemporaryDirectory() as room:
            with open(f"{room}/outside", "w", encoding="utf-8") as file:
                file.write("secret")
            yield number, room, random_folder(f"{room}/parts", choices)


def called(program, room, words):
    ran = subprocess.run([program, *words], cwd=room, stdin=subprocess.DEVNULL, capture_output=True, timeout=60)
    return ran.returncode, ran.stdout.decode(), ran.stderr.decode().splitlines()


def agreement(program, room, made):
    """What is wrong of the calls over a folder of partials, or None."""
    with open(f"{room}/t", "w", encoding="utf-8") as file:
        # a name that only a run knows: all files are read
        file.writelines(["{% if x %}{% include x %}{% endif %}", *(f"{{% include '{inner}' %}}," for inner in made.texts)])
    with open(f"{room}/r", "w", encoding="utf-8") as file:
        file.write("{}\n")
    page = "".join(f"{text}," for text in made.texts.values())
    errors = made.errors("parts")
    checked = 1 + len(made.texts.keys() - made.others)
    # the first file that isn't UTF-8 ends all but `check`, before or after files with a byte 0 are met
    wanted = {
        "render": (page, []), "paths": (None, []), "merge": (f"{page}\n", ["pages 1, failed 0"]),
        "check": (None, [f"files {checked}, faults 0, warnings 0"]),
    }
    for command, (out, after) in wanted.items():
        words = [command, "t", "r", "-p", "parts"] if command == "merge" else [command, "t", "-p", "parts"]
        status, printed, told = called(program, room, words)
        first_errors = errors if command == "check" else errors[:1]
        if status != (1 if errors else 0):
            return f"{command} ends with status {status}, and tells {told}"
        if [line for line in told if line.startswith("error:")] != first_errors:
            return f"{command} tells {told}, and not {first_errors}"
        if command == "check" or not errors:
            lines = made.lines("parts", command == "check")
            wrong = sorted(line for line in told if line.startswith("left out:")) != lines
            if wrong or [line for line in told if not line.startswith(("left out:", "error:"))] != after:
                return f"{command} tells {told}, and not {[*lines, *after]}"
        if not errors and out is not None and printed != out:
            return f"{command} writes {printed!r}, and not {out!r}"
    return None


def odd_entries(program):
    """What is wrong of folders that have one odd thing beside a text, or None."""
    for put in ODD:
        with tempfile.TemporaryDirectory() as room:
            with open(f"{room}/outside", "w", encoding="utf-8") as file:
                file.write("secret")
            made = Folder(f"{room}/parts")
            made.text("ok")
            put(made, "odd")
            if wrong := agreement(program, room, made):
                return f"{put.__name__}: {wrong}"
    return None


def agreements(program):
    """What is wrong of folders that are made at random, or None."""
    for number, room, made in random_folders():
        if wrong := agreement(program, room, made):
            return f"folder {number}, {made.texts}, {made.left_out}, {made.refused}: {wrong}"
    return None


def one_file(program):
    """What is wrong where a file has many names, or None: it is checked once."""
    with tempfile.TemporaryDirectory() as room:
        os.makedirs(f"{room}/s/in")
        with open(f"{room}/s/a", "w", encoding="utf-8") as file:
            file.write("{{")
        os.link(f"{room}/s/a", f"{room}/s/hard")
        os.symlink("a", f"{room}/s/soft")
        os.symlink("s", f"{room}/t")
        for words in (["s"], ["s", "s/../s", f"{room}/s", "t"], ["./s/a", "s/in/../a", "s/hard", "t/soft"], ["s/a", "-p", "t"], ["t", "-p", "x=s/hard"]):
            status, printed, told = called(program, room, ["check", *words])
            if (status, printed.count("Unclosed"), told) != (1, 1, ["files 1, faults 1, warnings 0"]):
                return f"check {words}: status {status}, {printed}, {told}"
    return None


def named(program):
    """What is wrong where a word names what a folder would leave out, or None: it is read."""
    with tempfile.TemporaryDirectory() as room:
        made = Folder(f"{room}/parts")
        made.image("icon")
        made.text("ok")
        refused = "error: parts/icon: the file isn't UTF-8: line 1, column 1; save it as UTF-8"
        for words in (["render", "parts/ok", "-p", "parts", "-p", "x=parts/icon"], ["check", "parts/ok", "-p", "parts", "-p", "x=parts/icon"], ["check", "parts", "parts/icon"]):
            status, _, told = called(program, room, words)
            if status != 1 or refused not in told:
                return f"{words}: status {status}, {told}"
        ran = subprocess.run(["bash", "-c", 'exec "$0" render <(printf "{%% include \'x\' %%}") -p x=<(printf page)', program], capture_output=True, timeout=60)
        if (ran.returncode, ran.stdout, ran.stderr) != (0, b"page", b""):
            return f"pipes that are named: {ran}"
    return None
