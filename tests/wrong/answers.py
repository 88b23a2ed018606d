"""Answers by hand, and the goals that an edit leaves without one: a goal that is open for want of an answer says nothing of the contract.
An edit that gives a way out another name, or adds one, is tried again with the answers of the same clause under the new names."""
import os
import re

from edits import text_of

# an error of a proof file, with the line that goes on with it where it is long
ERROR = re.compile(r"^(?:note: )?(?:\./)?(\S+?):(\d+):\d+: (?:error: )?(.*(?:\n  \S.*)?)$", re.M)
# a proof file that names what an edit took away, which says nothing of the contract
LOST_NAME = re.compile(r"has no field|is not in scope|has no `|was not admitted")
# one whose goal is called otherwise since
GONE = re.compile(r"`([^`]+)`: `[^`]*\.\1`: module `[^`]+` has no `\1`")
ANSWER = re.compile(r"^pub ([\w+-]+) : goal\.", re.M)
# the words and signs by which a body has ways out, and by which these are called
FORKS = re.compile(r"\b(?:if|else|match|return|while|loop|for|break|continue)\b|\?|&&|\|\||=>")


def proves(name, function, path):
    """Whether a proof file is one of the function's, by the name that a check gives it."""
    if function.cycle:
        return f"/+{function.cycle}/" in path
    folder, _, own = f"proofs/{name.split('::', 1)[1].replace('::', '/')}/".rstrip("/").rpartition("/")
    # a function that calls itself is a cycle of its own
    return path.startswith((f"{folder}/{own}/", f"{folder}/+{own}/"))


def by_hand(names, function, folder):
    """The answers by hand of a function that a check calls so, each with its file."""
    found = {}
    for at, _, files in os.walk(f"{folder}/proofs"):
        for path in (os.path.relpath(f"{at}/{file}", folder) for file in files if file == "Answers.antt"):
            if any(proves(name, function, path) for name in names):
                found.update({answer: path for answer in ANSWER.findall(text_of(f"{folder}/{path}"))})
    return found


def unread_answers(names, function, said):
    """The answers that the check couldn't read for a name that is gone, and whether it is that of the goal itself."""
    found = {}
    for path, _, what in ERROR.findall(said.text):
        if LOST_NAME.search(what) and any(proves(name, function, path) for name in names):
            own = re.match(r"`([^`]+)`", what)
            found.update({answer: False for answer in re.findall(r"[\w+-]+", what.partition("was not checked: ")[2])})
            found.update({own[1]: bool(GONE.match(what))} if own else {})
    return found


def place(goal, function):
    """What a goal asks of a function, whichever way out it stands at: the word that it begins with, and its clause."""
    own = re.sub(rf"^(?:\w+::)*{re.escape(function.name.split('::')[-1])}-", "", goal)
    return own.partition("-")[0], own.partition("-clause-")[2]


def renames(edit, function, unread):
    """Whether an edit may give goals of the function other names, or add some: the forks of its text are others, or a goal is gone."""
    forks = [[FORKS.findall(text) for text in pair[1:]] for pair in edit.pairs]
    return any(old != new for old, new in forks) or any(unread.get(it) for it in own_of(function, unread))


def wants_answer(goal, function, answers, unread):
    """Whether a goal may be open for want of an answer: it has none that is read, and another goal of its clause has one by hand."""
    has_own = goal in answers and goal not in unread
    return not has_own and any(place(goal, function) == place(it, function) for it in [*answers, *unread])


def handed_on(function, answers, unread, goals):
    """Which answers go under which names, so that open goals have one: each that of its clause at the way out that is called most
    alike. Those whose goals are gone go."""
    made = []
    for goal in goals:
        near = [it for it in answers if it != goal and place(it, function) == place(goal, function)]
        if goal not in answers and near:
            answer = max(near, key=lambda it: same_end(it, goal))
            made.append((of_function(answers[answer], function), answer, goal))
    gone = [it for it in own_of(function, answers) if unread.get(it)] if made else []
    return tuple(made + [(of_function(answers[it], function), it, "") for it in gone])


def own_of(function, answers):
    """Those of the function: in a cycle of calls they begin with its name."""
    own = re.compile(rf"(?:\w+::)*{re.escape(function.name.split('::')[-1])}-")
    return [it for it in answers if own.match(it)] or list(answers)


def of_function(path, function):
    """The proof file of the function that a twin stands after."""
    of = getattr(function, "of", None)
    return path.replace(f"/{function.name.split('::')[-1]}/", f"/{of.name.split('::')[-1]}/") if of else path


def same_end(name, other):
    """How many parts the two names end by alike."""
    pairs = zip(reversed(name.split("-")), reversed(other.split("-")))
    return next((count for count, (one, two) in enumerate(pairs) if one != two), len(name))
