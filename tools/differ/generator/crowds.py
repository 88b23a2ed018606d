"""Templates that ask for about as much of a name as docs/use/paths.md keeps apart, by a seed: parts, steps, filters and rounds."""

LENGTHS = (1, 5, 20, 31, 32, 40)
ENDS = ("", "", "", " | map: 't'", " | map: ''", " | size", " | compact", " | where: 't' | first", " | first | where: 't'", " | last | sort")
HANDED = ("x.a", "x.b", "x.a | first", "x | map: 'a'", "x.a | compact | last", "x | where: 'a' | first", "x | default: y | first")


def crowded_source(rng):
    return rng.choice((many_paths, side_by_side, far_steps, long_chain, one_after_another, on_and_on))(rng)


def many_paths(rng):
    """Paths of all depths over few keys."""
    name = "p" * rng.choice(LENGTHS)
    keys = ["k" * rng.choice(LENGTHS) + str(at) for at in range(rng.choice((2, 3, 5)))]
    deepest = rng.choice((2, 3, 4, 6))
    paths = (".".join([name, *(rng.choice(keys) for _ in range(rng.randint(1, deepest)))]) for _ in range(rng.choice((10, 20, 30, 40, 60))))
    return "".join(f"{{{{ {path}{rng.choice(ENDS)} }}}}" for path in paths)


def side_by_side(rng):
    """As many members as there may be parts, or half as many where each has one more in it."""
    name, count = "n" * rng.choice((1, 28, 31, 32)), rng.choice((66, 67, 98, 99, 100, 101, 130, 197, 198, 199, 200))
    form = rng.choice(("{{{{ {0}.m{1} }}}}", "{{{{ {0}.m{1}.t }}}}", "{{{{ {0}['é{1}'] }}}}", "{{% for i in {0}.m{1} %}}{{% endfor %}}"))
    return "".join(form.format(name, at) for at in range(count))


def far_steps(rng):
    return "".join(f"{{{{ p{'.a' * rng.randint(30, 34)}{rng.choice(ENDS)} }}}}" for _ in range(rng.choice((1, 2))))


def long_chain(rng):
    return f"{{{{ p{' | reverse' * rng.randint(29, 34)}{rng.choice(ENDS)} }}}}"


def one_after_another(rng):
    """Names that stand for a part of the next one: as many rounds as there are names."""
    count = rng.randint(1, 10)
    form = rng.choice(("{{% assign n{0} = n{1}.t %}}", "{{% for n{0} in n{1} %}}{{% endfor %}}", "{{% assign n{0} = n{1} | compact | first %}}"))
    return "".join(form.format(at, at + 1) for at in range(count)) + rng.choice(("{{ n0.t }}", "{% if n0 %}{% endif %}", "{{ n0 }}", ""))


def on_and_on(rng):
    """Names that stand for parts of themselves."""
    handed = "".join(f"{{% assign {rng.choice('xy')} = {rng.choice(HANDED)} %}}" for _ in range(rng.choice((1, 2, 3))))
    loop = rng.choice(("", "", "{% for x in x %}{% endfor %}", "{% for y in x.b %}{% if y %}{% endif %}{% endfor %}"))
    return f"{handed}{loop}{{{{ x.{'c' * rng.choice(LENGTHS)} }}}}"
