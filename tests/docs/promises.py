"""A test of tools/clauses, over two small crates that it writes: each form of a clause, and each way in which one may differ later."""
import os
import shutil
import subprocess
import tempfile

# as a crate is at first: the lines that the tool prints are below
BEFORE = {
    "first/src/lib.rt": '''//! A crate. `fn none() ensures { ⊥ }` is a comment.
ghost use Rattle.std.specs.Prelude.{◌≡◌, [], ◌∷◌, codes};

pub mod shapes;

const OPEN: char = '{';

/// One unnamed clause.
pub fn one() -> u8
    ensures { result ≡ 1 }
{
    1
}

/// Clauses with names, over several lines, with comments and a text.
pub fn many<'a, const N: usize>(bytes: &'a [u8; N], f: fn(u8) -> u8) -> Result<&'a str, [u8; 2]>
where
    [u8; N]: Sized,
    requires low { 0 < N } // not of the text
    requires high {
        N <   9 }
    ensures text { result ≡
        codes "a  } -- b" -- this neither
            ++ ( f.entry
        ) }
    ensures* lent { sem 𝓛 (Lends { x = result }) }
{
    let open = "ensures { no }";
    Ok(open)
}

/// A ghost value.
fn level(rt: &HostRuntime, level: &mut u32)
    ghost top: { ℕ }
    requires { level.old ≤ top }
    ensures { level.new ≤ top }
{
    fn inner() -> u8 requires { 1 < 2 } { 3 }
    let add = move |x: u8| -> u8
        requires { x < 9 }
        ensures value { result ≡ x + 1 }
    {
        x + 1
    };
    each(|y| ensures { result ≡ y } { y });
}
''',
    "first/src/shapes.rt": '''pub trait Shape: Drop {
    ghost area: { Self → ℕ };

    ghost within: { Self → Bool } = { λ _. true };

    fn size(&self) -> u32
        ensures { result ≡ area self.now };

    fn name(&self) -> &str;
}

pub struct Square<'a> {
    side: &'a u32,
    pub ghost small: { side.now < 100 } by { small-prop side.now },
}

impl<'a> Square<'a> {
    ghost use Rattle.first.specs.Sides.{side_of};

    pub fn side(&self) -> u32
        ensures { result ≡ side_of self.now }
    {
        *self.side
    }
}

impl<'a, W: Fn(u8) -> u8> Shape for Pair<Square<'a>, W>
where
    W: Copy,
{
    ghost area = { λ s. 2 * side_of s.0 };

    fn size(&self) -> u32 {
        2
    }
}

mod inner {
    pub fn deep()
        ensures { Unit {0} }
    {
    }
}
''',
    "second/src/main.rt": '''pub fn told() -> u8
    ensures same { result ≡ 7 }
{
    7
}
''',
}
LISTED = """\
first|level|ensures|level.new ≤ top
first|level|ghost top|ℕ
first|level|requires|level.old ≤ top
first|level::inner|requires|1 < 2
first|level::{closure 1}|ensures value|result ≡ x + 1
first|level::{closure 1}|requires|x < 9
first|level::{closure 2}|ensures|result ≡ y
first|many|ensures text|result ≡ codes "a  } -- b" ++ (f.entry)
first|many|ensures* lent|sem 𝓛 (Lends {x = result})
first|many|requires high|N < 9
first|many|requires low|0 < N
first|one|ensures|result ≡ 1
first|shapes::<Pair<Square<'a>, W> as Shape>|ghost area|= λ s. 2 * side_of s.0
first|shapes::Shape|ghost area|Self → ℕ
first|shapes::Shape|ghost within|Self → Bool = λ _. true
first|shapes::Shape::size|ensures|result ≡ area self.now
first|shapes::Square|ghost small|side.now < 100
first|shapes::Square<'a>::side|ensures|result ≡ side_of self.now
first|shapes::inner::deep|ensures|Unit {0}
second|told|ensures same|result ≡ 7
"""
# what is written otherwise later, in one file after another, and the lines of --against
EDITS = [
    ("first/src/lib.rt", "result ≡ 1 }", "result ≡ 2 }"),
    ("first/src/lib.rt", "requires low { 0 < N } // not of the text", "requires low {\n        0 < N\n    }"),
    ("first/src/lib.rt", "    ensures* lent { sem 𝓛 (Lends { x = result }) }\n", ""),
    ("first/src/lib.rt", "ensures { level.new ≤ top }", "ensures capped { level.new ≤ top }\n    ensures { ⊤ }"),
    ("first/src/shapes.rt", "2 * side_of s.0", "side_of s.0"),
    ("first/src/shapes.rt", "small-prop", "other-prop"),
    ("second/src/main.rt", "told", "said"),
]
MOVED = ("first/src/shapes.rt", "second/src/forms.rt")
DIFFERENT = """\
=|first shapes::<Pair<Square<'a>, W> as Shape>|second forms::<Pair<Square<'a>, W> as Shape>
=|first shapes::Shape|second forms::Shape
=|first shapes::Shape::size|second forms::Shape::size
=|first shapes::Square|second forms::Square
=|first shapes::Square<'a>::side|second forms::Square<'a>::side
=|first shapes::inner::deep|second forms::inner::deep
=|second told|second said
=|first level ensures|first level ensures capped
+|first|level|ensures|⊤
-|first|many|ensures* lent|sem 𝓛 (Lends {x = result})
-|first|one|ensures|result ≡ 1
+|first|one|ensures|result ≡ 2
-|second|forms::<Pair<Square<'a>, W> as Shape>|ghost area|= λ s. 2 * side_of s.0
+|second|forms::<Pair<Square<'a>, W> as Shape>|ghost area|= λ s. side_of s.0
1 came, 1 went, 2 changed, 8 are called otherwise
"""
UNREAD = "tools/clauses: crates/first/src/lib.rt:1: this is no clause, ghost member or import\n"
GIT = ["git", "-c", "user.name=test", "-c", "user.email=test@localhost", "-c", "commit.gpgsign=false"]


def written(path, text):
    os.makedirs(os.path.dirname(path), exist_ok=True)
    with open(path, "w", encoding="utf-8") as file:
        file.write(text)


def edited(path, old, new):
    with open(path, encoding="utf-8") as file:
        text = file.read()
    assert text.count(old) == 1, old
    written(path, text.replace(old, new))


def wrong_promises(top):
    """A result for each call of the tool: whether it prints what it must, and what to say if not."""
    with tempfile.TemporaryDirectory(prefix="clauses-") as room:
        env = {name: value for name, value in os.environ.items() if not name.startswith("GIT_")}

        def printed(*words):
            ran = subprocess.run([f"{room}/tools/clauses", *words], cwd=room, env=env, capture_output=True, text=True)
            return ran.returncode, (ran.stdout + ran.stderr).replace("\t", "|")

        def result(what, got, wanted):
            return got == wanted, f"tools/clauses {what}: {got}, and {wanted} is wanted"

        os.mkdir(f"{room}/tools")
        shutil.copy(f"{top}/tools/clauses", f"{room}/tools")
        for path, text in BEFORE.items():
            written(f"{room}/crates/{path}", text)
        for words in (["init", "-q"], ["add", "."], ["commit", "-qm", "before"]):
            subprocess.run([*GIT, *words], cwd=room, env=env, check=True)
        yield result("", printed(), (0, LISTED))
        yield result("second", printed("second"), (0, LISTED.splitlines(True)[-1]))
        no_difference = "0 came, 0 went, 0 changed, 0 are called otherwise\n"
        yield result("--against", printed("--against", "HEAD"), (0, no_difference))
        for path, old, new in EDITS:
            edited(f"{room}/crates/{path}", old, new)
        os.rename(*(f"{room}/crates/{path}" for path in MOVED))
        yield result("--against, after edits", printed("--against", "HEAD"), (1, DIFFERENT))
        written(f"{room}/crates/first/src/lib.rt", "ghost unknown;\n")
        yield result("at what it can't read", printed(), (1, UNREAD))
