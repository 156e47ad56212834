"""Reads the text of Rattle's source files: which function holds a place, and what a crate states to those above it.

A source file is cut into pieces: comments, strings, characters and braces. A function ends with its body, or with a
semicolon; the groups in braces before its body are clauses, each of which one of the words `requires`, `ensures` and
`ghost` begins. Nothing else of the language is known here. Where that fails a crate states more than it does, so that
more edits are due, or an edit lies in no function, so that it is tried alone.
"""
import re
from dataclasses import dataclass

# A comment, a string, a character (a lifetime, or a name's stroke in a clause, is none), or a sign that opens or ends something.
PIECE = re.compile(
    r"""(?P<comment>//[^\n]*|/\*)|(?P<raw>\bb?c?r(?P<hashes>\#*)")|(?P<string>"(?:[^"\\]|\\.)*")"""
    r"""|(?P<character>'(?:[^'\\\n]|\\(?:u\{[^}]*\}|.[^'\n]{0,2}))')|(?P<sign>[{}()\[\];])""",
    re.DOTALL,
)
CLAUSE = re.compile(r"\b(?:requires|ensures|ghost)\b")
FUNCTION = re.compile(r"\bfn\s+(?P<name>\w+)")
BLOCK = re.compile(r"\b(?:impl\b(?P<impl>[^{;]*)|trait\s+(?P<trait>\w+)[^{;]*|mod\s+(?P<mod>\w+)\s*)\Z")
# What stands before a function's `fn`, from the end of the item before it.
HEAD = re.compile(r"[^;{}]*\Z")
# An import that is neither passed on nor of a clause.
IMPORT = re.compile(r"(?<!ghost )(?<!pub )(?<!\) )\buse (?P<tree>[^;]+);")
# The same of a clause: what of definitions its names stand for.
GHOST_IMPORT = re.compile(r"\bghost use (?P<path>[^;{ ]+?)(?:\.\{(?P<names>[^;]*)\}| as (?P<name>\w+));")
# What is said of a proof.
TACTIC = re.compile(r"#!?\[tactic\b[^\]]*\]")
PUBLIC = re.compile(r"\bpub\b(?!\s*\()")
# What a file of definitions declares: a definition, a record, or a field of one.
DECLARED = re.compile(
    r"^[ \t]*(?:(?:pub|abbrev|record|data|opaque|unfoldable)\s+)*([^\s:(){},=]+)(?:\s[^:=\n]*)?\s*:(?=\s)", re.MULTILINE
)


@dataclass
class Function:
    """A function of a file: the names of the modules and the type that hold it, where its parts lie in the text, and the head of the
    innermost block that holds it, as `impl Sink for File`, or ''."""

    path: tuple
    begin: int
    body: int
    end: int
    is_stated: bool
    block: str

    @property
    def is_of_trait(self):
        """Whether it stands in a trait's impl, where the trait's clauses speak of it."""
        return self.block.startswith("impl") and name_of_impl(self.block.removeprefix("impl"))[1]


def without_comments(text):
    """Returns the text with its comments blanked, at the same places."""
    out, at = [], 0
    while found := PIECE.search(text, at):
        out.append(text[at : found.start()])
        at = end_of(text, found)
        piece = text[found.start() : at]
        out.append(re.sub(r"[^\n]", " ", piece) if found["comment"] else piece)
    return "".join([*out, text[at:]])


def end_of(text, found):
    """Returns where the piece that was found ends."""
    if found["raw"]:
        end = text.find('"' + found["hashes"], found.end())
        return len(text) if end < 0 else end + 1 + len(found["hashes"])
    if found["comment"] != "/*":
        return found.end()
    depth, at = 1, found.end()
    while depth and (sign := re.compile(r"/\*|\*/").search(text, at)):
        depth, at = depth + (1 if sign[0] == "/*" else -1), sign.end()
    return at if not depth else len(text)


def signs(text, at):
    """Gives the signs of a text without comments, from a place on, with where each stands."""
    while found := PIECE.search(text, at):
        at = end_of(text, found)
        if found["sign"]:
            yield found.start(), found["sign"]


def end_of_group(text, at):
    """Returns the place after the brace that ends the group whose brace stands there."""
    depth = 0
    for place, sign in signs(text, at):
        depth += (sign == "{") - (sign == "}")
        if not depth and sign in "{}":
            return place + 1
    return len(text)


def parts_of_function(text, at):
    """Returns where the body of the function begins whose head ends there, or its semicolon stands, and where it ends."""
    depth, since = 0, at
    while True:
        for place, sign in signs(text, since):
            depth += (sign in "([") - (sign in ")]")
            if depth <= 0 and sign in "{;":
                break
        else:
            return len(text), len(text)
        if sign == ";":
            return place, place + 1
        end = end_of_group(text, place)
        if not CLAUSE.search(text, since, place):
            return place, end
        since = end


def name_of_impl(head):
    """Returns the name that a check prints for an impl, which is that of the type, with that of the trait and what this is of; and
    whether it is of a trait."""
    head = re.sub(r"\bwhere\b.*", "", head, flags=re.DOTALL).strip()
    if head.startswith("<"):
        depth = 0
        for place, sign in enumerate(head):
            depth += (sign == "<") - (sign == ">" and head[place - 1] != "-")
            if not depth:
                head = head[place + 1 :].strip()
                break
    of, _, kind = head.rpartition(" for ")
    kind = re.sub(r"<.*", "", kind, flags=re.DOTALL).strip()
    kind = re.sub(r"\A&\s*(?:'\w+\s+)?mut\b.*", "RefMut", kind, flags=re.DOTALL)
    return re.sub(r"\A&.*", "Ref", kind, flags=re.DOTALL).split("::")[-1] + "".join(re.findall(r"\w+", of)), bool(of)


def functions_of(text, path=()):
    """Returns the functions of a text without comments, those outside others, in their order."""
    found, at, blocks = [], 0, []
    for place, sign in signs(text, 0):
        if place < at:
            continue
        head = FUNCTION.search(text, at, place + 1)
        if head:
            body, end = parts_of_function(text, head.end())
            before = HEAD.search(text, at, head.start())[0]
            owners = tuple(name for _, name, _, _ in blocks if name)
            is_stated = bool(PUBLIC.search(before)) or any(states for _, _, states, _ in blocks)
            # (a constant may be made by such a function's body)
            keeps = re.search(r"\bconst\s+(?:unsafe\s+)?\Z", before)
            within = blocks[-1][3] if blocks else ""
            found.append(Function((*path, *owners, head["name"]), head.start() - len(before), end if keeps else body, end, is_stated, within))
            at = end
        elif sign == "{":
            block = BLOCK.search(text, at, place)
            if not block:
                at = end_of_group(text, place)
                continue
            named = block["trait"] or block["mod"]
            name, states = (named, bool(block["trait"])) if named else name_of_impl(block["impl"])
            blocks.append((place, name, states, squeezed(block[0])))
            at = place + 1
        elif sign == "}":
            blocks = blocks[:-1]
            at = place + 1
        elif sign == ";":
            at = place + 1
    return found


def module_of(path):
    """Returns the module that a file of src/ is, as a tuple of names."""
    names = path.removeprefix("src/").removesuffix(".rt").split("/")
    return tuple(names[:-1] if names[-1] in ("mod", "lib", "main") else names)


def function_at(text, path, begin, end):
    """Returns the path below the crate of the function whose body holds these places of a file, or None."""
    holds = lambda it: it.body < begin and end < it.end
    found = [it for it in functions_of(without_comments(text), module_of(path)) if holds(it)]
    return "::".join(found[0].path) if found else None


def function_on(text, path, line):
    """Returns the path below the crate of the function of a file whose head or body is on this line, or None."""
    at = sum(len(it) + 1 for it in text.split("\n")[:line]) - 1
    found = [it for it in functions_of(without_comments(text), module_of(path)) if it.begin < at <= it.end]
    return "::".join(found[0].path) if found else None


def squeezed(text):
    return re.sub(r"\s+", " ", text).strip()


def code(text):
    """Returns what a check reads of a source file: the text without comments and layout."""
    return squeezed(without_comments(text))


def names_in(tree, above=()):
    """Returns what an import brings: for each name the path that it stands for."""
    at = tree.find("{")
    if at < 0:
        path, _, name = tree.strip().partition(" as ")
        path = [*above, *filter(None, path.strip().split("::"))]
        return {(name or path[-2 if path[-1] == "self" else -1]).strip(): "::".join(path)}
    above, found, depth, since = [*above, *filter(None, tree[:at].strip().split("::"))], {}, 0, at + 1
    inside = tree[: tree.rindex("}")] + ","
    for place in range(at + 1, len(inside)):
        depth += (inside[place] == "{") - (inside[place] == "}")
        if inside[place] == "," and not depth:
            if inside[since:place].strip():
                found |= names_in(inside[since:place], above)
            since = place + 1
    return found


def names_of_clauses(found):
    """Returns what an import of a clause brings, as `names_in` does."""
    if found["names"] is None:
        return {found["name"]: found["path"]}
    named = [it.partition(" as ") for it in map(squeezed, found["names"].split(",")) if it]
    return {name or own: f"{found['path']}.{own}" for own, _, name in named}


def is_named(name, rest):
    """Returns whether a name stands in the text; of an operator whether each of its signs does."""
    if re.fullmatch(r"[\w-]+", name):
        return re.search(rf"(?<!\w){re.escape(name)}(?!\w)", rest) is not None
    return all(sign in rest for sign in name.split("◌"))


def without_unused(text):
    """Returns the text with each import as a line of its own, and without those that only a body, or the clauses of a function that is
    not public, needed."""
    rest = GHOST_IMPORT.sub("", IMPORT.sub("", text))
    brought = [names_in(it["tree"]) for it in IMPORT.finditer(text)]
    used = [f"use {path} as {name};" for names in brought for name, path in names.items() if name == "*" or is_named(name, rest)]
    brought = [names_of_clauses(it) for it in GHOST_IMPORT.finditer(text)]
    used += [f"ghost use {path} as {name};" for names in brought for name, path in names.items() if is_named(name, rest)]
    return " ".join([*sorted(used), rest])


def stated(text):
    """Returns what a source file states to the crates above: all but comments, layout, bodies, functions that are not public, and
    imports that only these needed."""
    text = without_comments(text)
    if "macro_rules!" in text:
        return squeezed(text)
    out, at = [], 0
    for it in functions_of(text):
        out += [text[at : it.begin], text[it.begin : it.body] if it.is_stated else ""]
        at = it.end
    return squeezed(without_unused(TACTIC.sub("", "".join([*out, text[at:]]))))


def definitions(text):
    """Returns what a check reads of a file of definitions or lemmas: the text without lines that are comments or empty."""
    return "\n".join(it.rstrip() for it in text.split("\n") if it.strip() and not it.lstrip().startswith("--"))
