"""A copy of a crate in which only some functions are left to prove: each other one is taken at its word.

A proof sees the contracts of the functions that it calls, and not their bodies. So each function that isn't to be proved gets a body
with nothing in it, and a proof with a hole, which a check that allows holes goes past: those that have a contract, their own or that of
their trait, and of the others those that aren't of a trait.
"""
import functools
import os
import re
import shutil

from edits import sources, text_of
from functions import Twin, bound_functions, modules, stated_functions, trait_functions, unstated_functions

CRATES = f"{os.path.dirname(os.path.dirname(os.path.dirname(os.path.abspath(__file__))))}/crates"

TYPE = re.compile(r"^(?:pub(?:\([^)]*\))? )?(?:struct|enum) (\w+)", re.M)
HOLE = """use Rattle.{crate}.proofs.{path}.Statement.{{statement}}

pub {name}_spec : {{M : Type 1}} → statement M
{name}_spec = ?
"""


def stub(crate, folder, proved):
    """Takes at its word each function of the copy, but these and those of their cycles of calls, which may span modules."""
    texts = {path: text_of(f"{folder}/{path}") for path in sources(folder)}
    homes = homes_of(texts)
    stated = {it.name: it for path, text in texts.items() for it in stated_functions(text, path)}
    for it in proved:
        if isinstance(it, Twin):
            give_answers(crate, folder, place_of(stated[it.of.name], homes), place_of(stated[it.name], homes))
    names, cycles = {it.name for it in proved}, {it.cycle for it in proved if it.cycle}
    for path, text in texts.items():
        lines = text.split("\n")
        others = bound_functions(text, path, all_traits()) + unstated_functions(text, path)
        for it in sorted(stated_functions(text, path) + others, key=lambda it: -it.opens):
            if it.name not in names and it.cycle not in cycles:
                empty_body(lines, it)
                leave_hole(crate, folder, it, homes)
        with open(f"{folder}/{path}", "w", encoding="utf-8") as file:
            file.write("\n".join(lines))


@functools.cache
def all_traits():
    """The functions for which traits of the crates state a contract, by the name of the trait."""
    found = {}
    for name in sorted(os.listdir(CRATES)):
        for path in sources(f"{CRATES}/{name}"):
            found |= trait_functions(text_of(f"{CRATES}/{name}/{path}"))
    return found


def empty_body(lines, function):
    indent = re.match(" *", lines[function.opens])[0]
    lines[function.opens + 1 : function.closes] = [indent + "    loop {}"]
    if function.cycle:
        lines[function.marked] = ""


def homes_of(texts):
    """The modules that have a type of a name, by the name."""
    homes = {}
    for path, text in texts.items():
        for name in TYPE.findall(text):
            homes.setdefault(name, []).append(modules(path))
    return homes


def place_of(function, homes):
    """The path of the function in the crate, by its parts. Of several types of one name a method is of the one in its own file."""
    owner, _, name = function.name.rpartition("::")
    if not function.is_inherent:
        return [*filter(None, owner.split("::")), name]
    found, own = homes.get(owner, [[owner]]), modules(function.path)
    return [*(own if own in found else found[-1]), owner, name]


def give_answers(crate, folder, of, to):
    """Gives a function the answers of another one."""
    if os.path.isdir(f"{folder}/proofs/{'/'.join(of)}"):
        shutil.copytree(f"{folder}/proofs/{'/'.join(of)}", f"{folder}/proofs/{'/'.join(to)}")
    for at, _, names in os.walk(f"{folder}/proofs/{'/'.join(to)}"):
        for name in names:
            text = text_of(f"{at}/{name}").replace(f"Rattle.{crate}.proofs.{'.'.join(of)}.", f"Rattle.{crate}.proofs.{'.'.join(to)}.")
            with open(f"{at}/{name}", "w", encoding="utf-8") as file:
                file.write(text)


def leave_hole(crate, folder, function, homes):
    """Writes the function's proof, in place of what the crate has for it."""
    own = place_of(function, homes)
    place = f"{folder}/proofs/{'/'.join(own)}"
    shutil.rmtree(place, ignore_errors=True)
    if function.cycle:
        shutil.rmtree(f"{folder}/proofs/{'/'.join([*modules(function.path), '+' + function.cycle])}", ignore_errors=True)
    os.makedirs(place)
    with open(f"{place}/Proof.antt", "w", encoding="utf-8") as file:
        file.write(HOLE.format(crate=crate, path=".".join(own), name=own[-1]))
