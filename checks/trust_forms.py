"""The forms that checks/trust looks for, in the tokens of generated Rust."""

import collections
import re

TOKEN = re.compile(
    r"""(?P<space>\s+|//[^\n]*|/\*.*?\*/)
    |(?P<string>[bc]?r(?P<hashes>\#*)".*?"(?P=hashes)|[bc]?"(?:[^"\\]|\\.)*")
    |(?P<char>b?'(?:\\u\{\w+\}|\\x\w\w|\\.|[^\\'])')
    |(?P<lifetime>'\w+)
    |(?P<number>0[xob]\w+|\d[\d_]*(?:\.(?![\w.])|\.\d[\d_]*)?(?:[eE][+-]?[\d_]+)?\w*)
    |(?P<word>(?:r\#)?[^\W\d]\w*)
    |(?P<mark>\.\.[.=]?|::|->|=>|&&|\|\||[=!<>+\-*/%^&|]=|.)""",
    re.X | re.S,
)
OPEN, CLOSE = {"(": ")", "[": "]", "{": "}"}, {")", "]", "}"}

# Words that stand for cells, locks, threads and pointers to code, wherever they stand.
CELLS = re.compile(
    r"(Once|Lazy|Ref|Unsafe)?Cell|(Once|Lazy)Lock|Mutex|RwLock|Condvar|Barrier|Atomic\w*|Arc|Rc|Weak|thread|thread_local"
)

# Methods of core and alloc whose names methods of these files bear, too: where nothing tells the type of
# what such a one is called on, it is core's.
STANDARD = set(
    "all any clear contains copied count filter find first get get_mut insert is_empty iter last len map max min push "
    "position reverse split swap take truncate write fmt eq cmp".split()
)

# The functions that may call themselves, since an argument bounds how often.
BOUNDED = {"come_apart"}

Token = collections.namedtuple("Token", "kind text line")
Function = collections.namedtuple("Function", "path owner traits name types first last")


def tokens_of(text):
    """The tokens of a text, comments and white space left out; two empty ones at the end."""
    found, at, line = [], 0, 1
    while at < len(text):
        item = TOKEN.match(text, at)
        kind, word = item.lastgroup, item.group()
        if kind == "hashes":
            kind = "string"
        if kind == "number" and found and found[-1].text == ".":
            # (a place in a tuple)
            word = re.match(r"\d+", word).group()
        if kind != "space":
            found.append(Token(kind, word, line))
        at, line = at + len(word), line + word.count("\n")
    return found + [Token("end", "", line)] * 2


def code_of(tokens):
    """The code again, with a space where a string or a character stood."""
    dull = {"string": '""', "char": "' '"}
    lines = collections.defaultdict(list)
    for token in tokens:
        lines[token.line].append(dull.get(token.kind, token.text))
    text = "\n".join(" ".join(lines[line]) for line in range(1, max(lines, default=0) + 1))
    # (as it is written: no spaces within a path and before an opening bracket)
    return re.sub(r"\s*(::|\.)\s*", r"\1", re.sub(r"(?<=\w) (?=[(!])|(?<=!) (?=[(\[{])", "", text))


def partner(tokens, at):
    """The place of the bracket that closes the one here."""
    depth = 0
    for i in range(at, len(tokens)):
        depth += (tokens[i].text in OPEN) - (tokens[i].text in CLOSE)
        if depth == 0:
            return i
    return len(tokens) - 1


def behind_generics(tokens, at):
    """The place behind `<..>`, if it stands here."""
    if tokens[at].text != "<":
        return at
    depth = 0
    for i in range(at, len(tokens)):
        depth += {"<": 1, ">": -1}.get(tokens[i].text, 0)
        if depth == 0:
            return i + 1
    return at


def ends_operand(token):
    return token.kind in ("word", "number", "char") and token.text not in ("in", "return", "if", "match") or token.text in CLOSE


def open_ranges(tokens):
    """A range without an end that isn't an index or a pattern."""
    for i in range(1, len(tokens) - 1):
        if tokens[i].text == ".." and ends_operand(tokens[i - 1]) and tokens[i + 1].text in ("", ")", ",", ";", "{", "}", ".", "?"):
            yield i, "a range without an end (there it ends at the type's top)"


def clones(tokens):
    """A clone, by its method or its name: as an item of an iterator it is a Result there."""
    for i, token in enumerate(tokens):
        before = tokens[i - 1].text
        if token.text in ("clone", "cloned", "clone_from") and before in (".", "::") or token.text == "Clone" and tokens[i + 1].text == "::":
            yield i, "a clone (as an item of an iterator there a Result, here the clone)"


def words(tokens):
    """Words that may stand nowhere."""
    for i, token in enumerate(tokens):
        if token.kind != "word":
            continue
        behind = tokens[i + 1].text
        if token.text == "Drop":
            yield i, "a Drop of its own (there it takes the value apart)"
        if token.text in ("size_of", "size_of_val", "align_of", "align_of_val", "transmute") or token.text == "offset_of" and behind == "!":
            yield i, "size_of, align_of, offset_of (layouts differ without a repr)"
        if token.text == "unsafe":
            yield i, "unsafe"
        if token.text == "fn" and behind == "(":
            yield i, "a function pointer"
        if token.text == "dyn":
            yield i, "a dyn value"
        if token.text == "static" and behind == "mut" or CELLS.fullmatch(token.text):
            yield i, "a static that changes, a cell, a lock or a thread"
        if token.text in ("f32", "f64", "f16", "f128"):
            yield i, "floating point"
        if token.text == "stringify":
            yield i, "stringify (long texts may break there)"
        if token.text in ("catch_unwind", "resume_unwind", "panic_any", "UnwindSafe", "AssertUnwindSafe"):
            yield i, "unwinding (which there is none of there)"
        if token.text in ("cfg", "cfg_attr"):
            yield i, "code that depends on the target"
        if token.text in ("BITS", "MAX", "MIN") and tokens[i - 1].text == "::" and tokens[i - 2].text in ("usize", "isize"):
            if token.text == "BITS":
                yield i, "code that depends on the target"


def floats(tokens):
    """A literal with a point, an exponent or a suffix."""
    for i, token in enumerate(tokens):
        is_decimal = token.kind == "number" and not token.text.startswith(("0x", "0o", "0b"))
        if is_decimal and re.search(r"\.|[eE][+-]?\d|f(16|32|64|128)$", token.text):
            yield i, "floating point"


def updates(tokens, fields):
    """A struct update, all fields written, from anything but a variable, its field, what it points to, or a constant."""
    for i in range(1, len(tokens) - 1):
        if tokens[i].text != ".." or tokens[i - 1].text not in (",", "{") or tokens[i + 1].text in ("}", ")", "]", ","):
            continue
        end = i + 1
        while tokens[end].text not in ("}", "", ",", ";"):
            end = partner(tokens, end) + 1 if tokens[end].text in OPEN else end + 1
        opening, written = opening_before(tokens, i)
        if any(token.text in OPEN for token in tokens[i:end]) and written >= len(fields.get(tokens[opening - 1].text, ())):
            yield i, "a struct update from an index or a call, with all fields written (it isn't evaluated there)"


def opening_before(tokens, i):
    """The place of the bracket that is open at a place, and how many commas stand between at its depth."""
    depth, commas = 0, 0
    for at in range(i - 1, -1, -1):
        depth += (tokens[at].text in CLOSE) - (tokens[at].text in OPEN)
        if depth < 0:
            return at, commas
        commas += tokens[at].text == "," and not depth
    return 0, commas


def casts(tokens, known):
    """An `as` between numbers that isn't on the list."""
    for i, token in enumerate(tokens):
        if token.text == "as" and token.kind == "word" and re.fullmatch(r"[iu](8|16|32|64|128|size)|char|[A-Z]\w*", tokens[i + 1].text):
            if is_import(tokens, i) or tokens[behind_type(tokens, i + 1)].text == ">" and tokens[i - 1].kind == "word" and in_path(tokens, i):
                continue
            text = operand(tokens, i) + " as " + tokens[i + 1].text
            if text not in known:
                yield i, f"an `as` that checks/trust_casts.txt lacks: {text}"


def behind_type(tokens, at):
    while tokens[at + 1].text == "::":
        at += 2
    return at + 1


def in_path(tokens, i):
    """Whether an `as` stands in a path such as `<T as Trait>::name`."""
    return tokens[i - 2].text == "<"


def is_import(tokens, i):
    while i > 0 and tokens[i].text not in (";", "(", "=", "return"):
        if tokens[i].text == "use":
            return True
        i -= 1
    return False


def operand(tokens, i):
    """The operand that ends before a place: a name, a field, a call, or what is in brackets."""
    start = i - 1
    while True:
        if tokens[start].text in CLOSE:
            depth = 0
            while True:
                depth += (tokens[start].text in CLOSE) - (tokens[start].text in OPEN)
                if depth == 0:
                    break
                start -= 1
            if tokens[start].text in "([" and (tokens[start - 1].kind == "word" or tokens[start - 1].text in (")", "]", ">", "?")):
                start -= 1
                continue
        if tokens[start].text == "?":
            start -= 1
            continue
        if tokens[start].text == ">":
            while tokens[start].text != "<":
                start -= 1
            start -= 2
            continue
        if tokens[start - 1].text in (".", "::"):
            start -= 2
            continue
        break
    return "".join(token.text for token in tokens[start:i])


def local_forms(tokens, fields, known):
    """Each place of a form that a file shows by itself, with what it is; by the fields of structs and the known casts."""
    for look in (open_ranges, clones, words, floats):
        yield from look(tokens)
    yield from updates(tokens, fields)
    yield from casts(tokens, known)


def blocks(tokens):
    """The blocks of impls and traits: their first and last place, the trait's name or None, and the type's tokens."""
    for i, token in enumerate(tokens):
        if token.kind != "word" or token.text not in ("impl", "trait") or tokens[i - 1].text in ("(", "<", ":", "->", "&", "+", ","):
            continue
        at, head, depth = behind_generics(tokens, i + 1), [], 0
        while tokens[at].text not in ("{", ";", "where", "") or depth:
            depth += {"<": 1, ">": -1, "(": 1, ")": -1, "[": 1, "]": -1}.get(tokens[at].text, 0)
            head.append((tokens[at], depth))
            at += 1
        while tokens[at].text not in ("{", ";", ""):
            at += 1
        if tokens[at].text != "{":
            continue
        split = [place for place, (word, deep) in enumerate(head) if word.text == "for" and not deep]
        if token.text == "trait":
            yield i, partner(tokens, at), head[0][0].text, None
        elif split:
            trait = [word.text for word, deep in head[: split[0]] if word.kind == "word" and not deep]
            yield i, partner(tokens, at), trait[-1], [word.text for word, _ in head[split[0] + 1 :]]
        else:
            yield i, partner(tokens, at), None, [word.text for word, _ in head]


def head_of(words):
    """The name of the type that these tokens spell, behind references and paths; '' for one without a name."""
    words = [word for word in words if word not in ("&", "&&", "mut", "dyn") and not word.startswith("'")]
    name = ""
    for word in words:
        if not re.match(r"\w", word) and word != "::":
            break
        name = word if word != "::" else name
    return name


def bounds_of(tokens, first):
    """The bounds of the parameters of the impl at a place, by the parameters' names, where each has one."""
    texts = [token.text for token in tokens[first + 1 : behind_generics(tokens, first + 1)]]
    return {texts[at - 1]: texts[at + 1] for at, text in enumerate(texts) if text == ":"}


def foreign_impls(files):
    """An impl of a trait of these files for a type that isn't theirs: there a call could choose another method.

    An impl for each type with a trait of these files is for theirs, since the impls of that trait are."""
    traits = {name for tokens in files.values() for _, _, name, of in blocks(tokens) if of is None}
    types = {name for tokens in files.values() for name in types_of(tokens)}
    for path, tokens in files.items():
        for first, _, trait, of in blocks(tokens):
            if not of or trait not in traits:
                continue
            is_bound = len(of) == 1 and bounds_of(tokens, first).get(of[0]) in traits
            if not is_bound and (of[0] in ("&", "&&", "(", "[", "*") or head_of(of) not in types):
                yield path, first, f"the trait {trait} for {''.join(of)}"


def types_of(tokens):
    """The structs and enums that a file declares."""
    for i, token in enumerate(tokens):
        if token.kind == "word" and token.text in ("struct", "enum") and tokens[i + 1].kind == "word":
            yield tokens[i + 1].text


def typed(tokens, first, last):
    """The names and types, as the head's name, of a list of fields or parameters between two places."""
    found, at = {}, first
    while at < last:
        end, depth = at, 0
        while end < last and (tokens[end].text != "," or depth):
            depth += {"<": 1, ">": -1, "(": 1, ")": -1, "[": 1, "]": -1}.get(tokens[end].text, 0)
            end += 1
        texts = [token.text for token in tokens[at:end]]
        if ":" in texts:
            colon = texts.index(":")
            kind = head_of(texts[colon + 1 :])
            # (of an optional value, what a pattern `Some(..)` binds counts)
            is_optional = texts[colon + 1 : colon + 3] == ["Option", "<"]
            found[texts[colon - 1]] = f"Option<{head_of(texts[colon + 3 :])}>" if is_optional else kind
        at = end + 1
    return found


def fields_of(tokens):
    """The fields of each struct with named fields."""
    for i, token in enumerate(tokens):
        if token.text == "struct" and tokens[i + 1].kind == "word":
            at = behind_generics(tokens, i + 2)
            if tokens[at].text == "{":
                bounds = bounds_in(tokens, i, at)
                fields = typed(tokens, at + 1, partner(tokens, at))
                yield tokens[i + 1].text, {name: bounds.get(kind, kind) for name, kind in fields.items()}


def supertraits_of(tokens):
    """The traits of a file that have a supertrait, each with the first one."""
    for i, token in enumerate(tokens):
        if token.text == "trait" and tokens[i + 1].kind == "word":
            at = behind_generics(tokens, i + 2)
            if tokens[at].text == ":" and tokens[at + 1].kind == "word":
                yield tokens[i + 1].text, tokens[at + 1].text


def bounds_in(tokens, first, last):
    """The first bound of each type parameter between two places, up to a body."""
    found = {}
    for i in range(first, last):
        if tokens[i].text == "{":
            break
        if tokens[i].kind == "word" and tokens[i].text.isupper() and tokens[i + 1].text == ":" and tokens[i + 2].kind == "word":
            found[tokens[i].text] = head_of([token.text for token in tokens[i + 2 : i + 12]])
    return found


def functions(path, tokens):
    """The functions of a file that have a body."""
    around = list(blocks(tokens))
    for i, token in enumerate(tokens):
        if token.text != "fn" or tokens[i + 1].kind != "word":
            continue
        opening = behind_generics(tokens, i + 2)
        closing = partner(tokens, opening)
        at = closing
        while tokens[at].text not in ("{", ";", ""):
            at = partner(tokens, at) + 1 if tokens[at].text in OPEN else at + 1
        if tokens[at].text != "{":
            continue
        within = [block for block in around if block[0] < i < block[1]]
        outer, _, trait, of = within[-1] if within else (i, i, None, None)
        owner = head_of(of) if of else trait
        bounds = {**bounds_in(tokens, outer, i), **bounds_in(tokens, i, opening)}
        types = {name: bounds.get(kind, kind) for name, kind in typed(tokens, opening + 1, closing).items()}
        types["self"] = owner
        yield Function(path, owner, trait, tokens[i + 1].text, types, at, partner(tokens, at))


def payloads_of(tokens):
    """The variants of enums that have one field, with its type."""
    for i, token in enumerate(tokens):
        if token.text == "enum" and tokens[i + 1].kind == "word":
            at = behind_generics(tokens, i + 2)
            for place in range(at, partner(tokens, at)):
                if tokens[place].kind == "word" and tokens[place + 1].text == "(" and tokens[place - 1].text in ("{", ",", "]"):
                    yield tokens[place].text, head_of([it.text for it in tokens[place + 2 : partner(tokens, place + 1)]])


def module_of(path):
    """The name of the module that a file is."""
    return re.sub(r"(/mod)?\.rs$", "", str(path)).rpartition("/")[2]


def imports_of(tokens):
    """The names that a file imports, each with the words of its path and the modules beside it."""
    found, beside = {}, set()
    for i, token in enumerate(tokens):
        if token.text == "mod" and token.kind == "word":
            beside.add(tokens[i + 1].text)
        if token.text == "use" and token.kind == "word":
            end = next(at for at in range(i, len(tokens)) if tokens[at].text in (";", ""))
            words = [token.text for token in tokens[i + 1 : end] if token.kind == "word"]
            found.update({word: words for word in words})
    return {name: set(words) | beside for name, words in found.items()}


class Calls:
    """Which function can call which, by names and by the types of parameters and fields."""

    def __init__(self, files):
        self.files = files
        self.functions = [it for path, tokens in files.items() for it in functions(path, tokens)]
        self.by_name = collections.defaultdict(list)
        for it in self.functions:
            self.by_name[it.name].append(it)
        self.fields = dict(it for tokens in files.values() for it in fields_of(tokens))
        self.types = {name for tokens in files.values() for name in types_of(tokens)}
        self.payloads = dict(it for tokens in files.values() for it in payloads_of(tokens))
        self.imports = {path: imports_of(tokens) for path, tokens in files.items()}
        self.traits = {name for tokens in files.values() for _, _, name, of in blocks(tokens) if of is None}
        self.above = dict(it for tokens in files.values() for it in supertraits_of(tokens))

    def called(self, caller):
        """The functions that a function can call."""
        tokens = self.files[caller.path]
        for i in range(caller.first, caller.last):
            token, before, behind = tokens[i], tokens[i - 1].text, tokens[i + 1].text
            found = self.by_name.get(token.text)
            if token.kind != "word" or not found or before == "fn":
                continue
            if before == ".":
                if behind in ("(", "::"):
                    yield from self.methods(caller, tokens, i, found)
            elif before == "::":
                yield from self.by_path(caller, tokens, i, found)
            elif behind in ("(", "::") or before in ("(", ",") and behind in (")", ","):
                is_local = any(tokens[at - 1].text in ("let", "mut") for at in self.places(caller, token.text))
                if token.text not in caller.types and not is_local:
                    yield from self.by_name_alone(caller, tokens, token.text, found)

    def by_name_alone(self, caller, tokens, name, found):
        free = [it for it in found if it.owner is None]
        near = [it for it in free if it.path == caller.path]
        imported = self.imports[caller.path].get(name, ())
        yield from near or [it for it in free if module_of(it.path) in imported]

    def methods(self, caller, tokens, i, found):
        chain, at = [], i - 2
        while tokens[at].kind in ("word", "number"):
            chain.insert(0, tokens[at].text)
            if tokens[at - 1].text != ".":
                break
            at -= 2
        is_chain = tokens[i - 2].kind in ("word", "number") and tokens[at - 1].text != "."
        is_unit = is_chain and chain[0][0].isupper()
        kind = caller.types.get(chain[0]) or self.bound_type(caller, tokens, chain[0]) if is_chain else None
        kind = chain[0] if is_unit else kind
        for name in chain[1:]:
            kind = self.fields.get(kind, {}).get(name) if kind is not None else None
        if kind is None and tokens[i].text in STANDARD:
            return
        kinds = {kind}
        while kind in self.above and self.above[kind] not in kinds:
            kind = self.above[kind]
            kinds.add(kind)
        for it in found:
            is_parameter = kind is not None and kind not in self.types and len(kind) == 1
            if it.owner and (kind is None or kinds & {it.owner, it.traits} or is_parameter and it.traits):
                yield it

    def places(self, caller, name):
        """Where a name stands in a function."""
        return [at for at in range(caller.first, caller.last) if self.files[caller.path][at].text == name]

    def bound_type(self, caller, tokens, name):
        """The type of a variable that a pattern such as `Variant(name)` binds, or `Some(name)` of a field."""
        for at in self.places(caller, name):
            words = [token.text for token in tokens[max(at - 7, 0) : at]]
            if words[:3] == ["match", "self", "."] and words[4:] == ["{", "Some", "("]:
                kind = self.fields.get(caller.owner, {}).get(words[3]) or ""
                return kind[7:-1] or None
            if tokens[at - 1].text == "(" and tokens[at + 1].text == ")" and tokens[at - 2].text in self.payloads:
                return self.payloads[tokens[at - 2].text]
        return None

    def by_path(self, caller, tokens, i, found):
        name = tokens[i - 2].text
        if name == ">":
            yield from (it for it in found if it.owner)
            return
        name = caller.owner if name == "Self" else name
        for it in found:
            is_module = module_of(it.path) == name or name in ("self", "super", "crate")
            if name in (it.owner, it.traits) or it.owner is None and is_module:
                yield it


def circles(files):
    """The functions that can call themselves, directly or through others."""
    calls = Calls(files)
    edges = {(it.path, it.first): list(calls.called(it)) for it in calls.functions}
    for it in calls.functions:
        came, todo = {}, [it]
        while todo and (it.path, it.first) not in came:
            at = todo.pop(0)
            for to in edges[at.path, at.first]:
                if (to.path, to.first) not in came:
                    came[to.path, to.first] = at
                    todo.append(to)
        if (it.path, it.first) in came:
            way, at = [], it
            while not way or at != it:
                way, at = [at.name, *way], came[at.path, at.first]
            if set(way) - BOUNDED:
                yield it.path, it.first, f"a function that can call itself: {it.name} calls {', '.join(way)}"
