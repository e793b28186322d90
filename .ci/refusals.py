"""Why the prover refuses an edit, by its first error that tells: a fact that no longer holds, or the edit's own shape, which shows nothing of the
sentence that it is to break. The one home of these patterns: the gate's (.ci/more/refusals), which has the beginning of that error as `rt ci`
prints it, and those of tests/edits/try-wrong-answers and tests/edits/try-further-edits, which have all that a check says."""
import glob
import re

from documents import changes, read

# The edit, or a proof that it breaks, names what is not there, rewrites what has no such place, or can't be read.
SHAPES = (
    ("a name out of scope", r"not in scope|is in scope|that can be named|has no `|has no field|cannot find|no such module|is not a name|is no name|was not admitted|was rejected"),
    ("nothing to rewrite", r"no occurrence|no part of the goal|does not occur|nothing to rewrite|no place to rewrite"),
    ("it does not parse", r"does not parse|unexpected |expected an? (?:signature|name|type|number|clause|term|item)|\bsyntax\b|unclosed|layout|this line starts at column|error\[[\w-]+\]"),
    ("a count of arguments", r"too (?:many|few) |takes \d+ |expects? \d+ argument|arity"),
    ("a step limit", r"step limit|ran out of|no verdict"),
)
# The goals that stand for a promise: what holds where the function returns, and what its loops keep for that.
PROMISE = r"`(?:returns|loop)[\w·-]*`"
# What no longer holds, by the words that the prover has for it.
FACTS = (
    ("a promise is not kept", rf"^{PROMISE}: |it is not proved that what the function ensures holds when it returns|the invariant of the loop"),
    ("what a callee asks is not met", r"^`[\w·-]*requires[\w·-]*`: |`[\w·-]*requires[\w·-]*`\)"),
    ("a number or an order does not follow", r"`omega`: the goal does not follow"),
    ("two things are not the same", r"the two (?:types|values|terms|sides) (?:first )?differ|expected type .* but this has type|expected type `"
     r"|the two types are `[^`]*(?:[≡≤<↔⊎→]|\bPath\b)|the two indices are `"),
    ("an equation is left to prove", r"give a proof of that as the last argument|`(?:rw|simp)` .*leaves|`cc`: "),
    ("no proof of a law", r"`search`: no proof of|no proof of `"),
    ("a goal is left", r"does not follow|does not hold|is not shown|no longer|the goal|it is not proved that"),
)
BOUND = "a bound of what it did not touch"
UNKNOWN = "not known: read it"
# The needs of a function that are no sentence's: that a sum fits, an index is inside, a cast loses nothing.
BOUNDS = r"`(?:overflow_\w+|bounds|slice_bounds|offset_bounds|shape_of|div|rem|neg|shl|shr)(?:-[\w·-]*)?`: |.*\(`(?:overflow_\w+|bounds|slice_bounds|offset_bounds)(?:-[\w·-]*)?`\)"
# What `rt ci` and `rt must-fail` say of an edit, and what they say behind "refused, as it must be" where that is no fact.
TOLD = r"^rt: must-fail (\w+)/([\w.-]+)\.edit: (.*)$"
REFUSED = "refused, as it must be"
ONLY = (
    ("a name out of scope", r"\(only because a proof file names what the edit took away"),
    ("a step limit", r"\(only by a limit of the prover"),
)


def told_by_rt(said):
    """What rt said of each edit that it tried, by crate and name."""
    return {(crate, name): words for crate, name, words in re.findall(TOLD, said, re.M)}


def kind_told(edit, crate, words):
    """As kind_of, of the words that rt has for an edit."""
    if not words.startswith(REFUSED):
        return words.split(":")[0], False, "?"
    for kind, pattern in ONLY:
        if re.match(rf"{REFUSED} {pattern}", words):
            return kind, False, "?"
    return kind_of(edit, crate, words.removeprefix(f"{REFUSED}: "))


def errors_of(said):
    """The place of each error of a log, from its crate's folder on, and what it says."""
    found = re.findall(r"^(?:note: )?(\S+?:\d+:\d+): (?:error: |(?=it is not proved))(.*)$", said, re.M)
    return [(re.sub(r"^\S*?(?=(?:src|specs|proofs)/)", "", place), words) for place, words in found]


def is_lost_name(place, words):
    """Whether a proof file names what an edit took away, as a goal of a branch that is no more: of itself that says nothing, and rt too looks on."""
    return place.startswith("proofs/") and bool(re.search(SHAPES[0][1], without_name(words)))


def telling(errors):
    """The first of some errors that is not of a lost name, or the first of all; nothing where there is none."""
    return next((error for error in errors if not is_lost_name(*error)), errors[0] if errors else None)


def without_name(words):
    """What an error says, without the declaration that it is of."""
    return re.sub(r"^(?:`[^`]*`: )", "", words)


def rest_of_error(said, words):
    """The further lines of an error, where the types that it prints have several."""
    behind = said[said.index(words) + len(words):]
    return re.split(r"\n(?=(?:note: )?\S+?:\d+:\d+: |fn |library |crate |logic)", behind, maxsplit=1)[0].replace("\n", " ")


def is_shape(said):
    """Whether an error is of an edit's shape."""
    return any(re.search(pattern, without_name(said)) for _, pattern in SHAPES)


def touches(edit, crate, place):
    """Whether an edit changes the function in whose proof a place stands: its text, or a constant that it names."""
    function = re.search(r"(\w+)/(?:Proof|Answers|Invariants)\.antt:", place)
    if not function:
        return True
    bodies = [body for path in glob.glob(f"crates/{crate}/src/**/*.rt", recursive=True)
              for body in re.findall(rf"^ *(?:pub )?(?:extern \"C\" )?fn {function.group(1)}\b.*?^ *\}}$", read(path), re.M | re.S)]
    named = [re.search(r"\bconst (\w+)", old) for _, old, _ in changes(edit)]
    return any(old in body for _, old, _ in changes(edit) for body in bodies) or any(
        name and re.search(rf"\b{name.group(1)}\b", body) for name in named for body in bodies)


def kind_of(edit, crate, said):
    """The kind of the refusal in a log, whether it is a fact, and where it stands."""
    error = telling(errors_of(said))
    if error is None:
        return "no error", False, "?"
    place, words = error
    for kind, pattern in SHAPES:
        if re.search(pattern, without_name(words)):
            return kind, False, place
    if re.match(BOUNDS, words) and not touches(edit, crate, place):
        return BOUND, False, place
    whole = words + rest_of_error(said, words)
    for kind, pattern in FACTS:
        if re.search(pattern, whole):
            return kind, True, place
    return UNKNOWN, False, place
