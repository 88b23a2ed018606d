"""What the program's completions complete in bash, zsh and fish, for tests/bikleinu/run: of those that are here."""
import os
import shutil
import subprocess
import tempfile

# the words of a line, the last of which is completed, and some of what it may be
TRIES = (
    (("",), ("render", "merge", "check", "paths", "help", "--version")),
    (("re",), ("render",)),
    (("render", "--filters", ""), ("decimals", "jekyll", "shopify")),
    (("render", "--filters", "j"), ("jekyll",)),
    (("render", "--deci"), ("--decimals",)),
    (("merge", "--records-format", "j"), ("json", "jsonl")),
    (("merge", "--c"), ("--cells", "--count")),
    (("paths", "--format", ""), ("text", "json-schema")),
    (("render", "tem"), ("template.liquid",)),
    (("render", "--data", "tem"), ("template.liquid",)),
    (("render", "[x"), ()),
)
BASH = """. <("$0" completions bash); COMP_WORDS=("$@"); COMP_CWORD=$(($# - 1)); _bikleinu; printf '%s\\n' "${COMPREPLY[@]}" """
FISH = """bikleinu completions fish | source; complete -C "$argv" """


def completed(program):
    """What is wrong with the completions, or None."""
    with tempfile.TemporaryDirectory() as room:
        os.symlink(program, f"{room}/bikleinu")
        open(f"{room}/template.liquid", "w", encoding="utf-8").close()
        environment = {**os.environ, "PATH": f"{room}:{os.environ['PATH']}", "HOME": room}
        for words, wanted in TRIES:
            for shell, call in (("bash", ["-c", BASH, f"{room}/bikleinu", "bikleinu", *words]), ("fish", ["-c", FISH, "bikleinu " + " ".join(words)])):
                if not shutil.which(shell):
                    continue
                ran = subprocess.run([shell, *call], cwd=room, env=environment, capture_output=True, text=True, timeout=60)
                found = [line.partition("\t")[0] for line in ran.stdout.split("\n") if line]
                if ran.stderr or not set(wanted) <= set(found) or (len(wanted) == 1 and found != list(wanted)) or (not wanted and found):
                    return f"{shell}: {words}: {found}, {ran.stderr}"
        if shutil.which("zsh"):
            ran = subprocess.run(["zsh", "-n", "/dev/stdin"], input=subprocess.run([program, "completions", "zsh"], capture_output=True, timeout=60).stdout, capture_output=True, timeout=60)
            if ran.returncode or ran.stderr:
                return f"zsh: {ran.stderr}"
    return None
