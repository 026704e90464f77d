"""Makes the two crates that checks/functions compares: the proved functions, written by mir_rust, and a copy of the
generated modules in which each function has another beside it that draws its arguments and calls it.

Of the toolchain's undocumented form (checks/mir_rust.py says why it is read, and what it would take to do without) this
file takes the paths of the kit's libraries, a function's parameters and locals with their types, its bounds, which trait's
or impl's method it is, and the layout of lists and of the buffer (words_of_type). A documented form would have to say
these things, too.
"""

import os
import pathlib
import re
import shutil

import mir_rust
import trust_forms

KIT_LIBRARIES = ["core", "std", "std_alloc", "std_heap", "libc", "arrayvec", "bitflags", "thiserror"]
# What the driver has of its own for four traits: what stands for the trait, the trait, and the type in the copy.
DRIVERS = [
    ("driver::Font", "shapers_base::font::hb_font_t", "Font", "LotFont"),
    ("driver::Tables", "shapers_base::font::Tables", "Tables", "LotTables"),
    ("driver::Context", "shapers_normal::ot_shape_normalize::context::NormalizeContext", "NormalizeContext", "LotContext"),
    ("driver::Properties", "shapers_prepare::ot_shape_prepare::unicode::UnicodeProperties", "UnicodeProperties", "LotProperties"),
]
SEED = ("Int", 64)
# The machines that find syllables: a function for every machine is compared with each of them.
MACHINE = "shapers_spans::machine::Machine"
MACHINE_TABLES = "shapers_spans::machine::MachineTables"
MACHINES = ["Indic", "Khmer", "Myanmar", "Universal"]

# Traits that a library writes or derives: how their methods are called, each argument by value, & or &mut.
DERIVED = {
    "PartialEq::eq": "& &", "BitAnd::bitand": ". .", "BitOr::bitor": ". .", "BitXor::bitxor": ". .", "Sub::sub": ". .",
    "BitAndAssign::bitand_assign": "! .", "BitOrAssign::bitor_assign": "! .", "BitXorAssign::bitxor_assign": "! .",
    "SubAssign::sub_assign": "! .", "Not::not": ".", "Default::default": "", "PartialOrd::partial_cmp": "& &",
}

PRELUDE = {"PartialEq", "Default", "PartialOrd"}

PRIMITIVE = set("u8 u16 u32 u64 u128 usize i32 i64 i128 bool char str".split())
STANDARD = PRIMITIVE | set("Vec Option Result Range ArrayVec Global AllocError String static Category Position".split())
# Types that the eraser deletes, which have no words: a count whose parts are all 0 counts nothing.
ERASED = {"shapers_spans::reads::Reads"}
# Types that harness.rs draws by hand.
BY_HAND = set(
    "Span GlyphInfo Buffer Script Tag Map Plan LotFont LotTables LotContext LotProperties"
    " PreparedClassDef PreparedCoverage PairTable SubtableTables Starts LookupTable PreparedTable LayoutTable"
    " GlyphText".split()
)
# The words with which a result begins that says that memory was refused, by the type of the error.
MEMORY = {"ShaperError": [1, 0], "CallError": [1, 1, 0], "AllocError": [1]}
# What stands for a type parameter, by its bound. (An unbounded F is a font in each of its impls.)
CHOSEN = {trait: of for _, _, trait, of in DRIVERS} | {"": "LotFont", "Machine": MACHINES[0], "MachineTables": MACHINES[0]}


# -- the proved functions


def proved(libraries, kit):
    """Writes every function of the repository's libraries; returns the program, its entries, and why others have none."""
    own = {}
    for path in libraries:
        own.update(mir_rust.read_library(path))
    paths = [f"{kit}/rlibs/{name}.rlib/toolchain/mir.json" for name in KIT_LIBRARIES]
    program = mir_rust.Program([mir_rust.read_library(path) for path in paths if os.path.exists(path)] + [own])
    program.counted = set(own)
    program.foreign = {f"rattle_{word}": f"heap_{word}" for word in ("alloc", "realloc", "dealloc")}
    for given, trait, _, _ in DRIVERS:
        methods = [it for it in program.functions.values() if (it["generics"]["method_of"] or {}).get("Trait", [0])[0] == trait]
        program.given[given] = [f"given_{given[8:].lower()}_{i}" for i in range(len(methods))]
    entries, why = {}, {}
    for name in own:
        if not name.endswith("+decl"):
            try:
                for suffix, machine in machines_of(program, name):
                    instance = instance_of(program, name, machine)
                    program.write(instance)
                    entries[name + suffix] = instance
            except mir_rust.Unwritten as error:
                why[name] = str(error)
    program.leave_out()
    for name, instance in list(entries.items()):
        if instance in program.why:
            why[name] = program.why[instance]
            del entries[name]
    return program, entries, why, own


def machines_of(program, name):
    """The machines that a function is compared with, and what stands behind its name then."""
    bounds = [bound["of"] for bound in program.functions[name]["generics"]["bounds"]]
    is_for_each = MACHINE in bounds or MACHINE_TABLES in bounds
    return [(f"[{machine}]", machine) for machine in MACHINES] if is_for_each else [("", None)]


def instance_of(program, name, machine):
    """A function with the driver's font, tables, context and properties, or this machine, for its type parameters."""
    generics = program.functions[name]["generics"]
    types, dicts = [None] * len(generics["types"]), []
    for bound in generics["bounds"]:
        given = next((it for it, trait, _, _ in DRIVERS if trait == bound["of"]), None)
        made = MADE_IMPLS.get(bound["of"])
        if made is not None:
            impl, kind = made(program, machine)
            types[bound["types"][0]["Param"]] = kind
            dicts.append(impl)
            continue
        if given is None:
            raise mir_rust.Unwritten(f"for every type with {bound['of']}")
        types[bound["types"][0]["Param"]] = SEED
        dicts.append((given, (), ()))
    if None in types:
        raise mir_rust.Unwritten("for every type")
    return name, tuple(types), tuple(dicts)


def blank_ledger(program):
    """The ledger that counts nothing, by which the proved program itself looks nothing up: its impl and its type."""
    for it in program.functions.values():
        for impl in it["generics"]["impls"]:
            if impl["of"]["of"] == "core::ledger::Ledger" and not impl["types"]:
                return (impl["name"], (), ()), program.type_of(impl["of"]["types"][0], ())
    raise mir_rust.Unwritten("no library has a ledger")


def machine_tables(program, machine):
    """The impl of a machine's tables, and its type."""
    impl = f"shapers_spans::{machine.lower()}::{machine}MachineTables"
    itself = program.functions[f"{impl}::rows"]["locals"][1]["ty"]
    return (impl, (), ()), program.type_of(itself, ())[1]


def machine_impl(program, machine):
    """The impl by which a machine reads its tables, and its type."""
    tables, kind = machine_tables(program, machine)
    return ("shapers_spans::machine::AnyMachine", (kind,), (tables,)), kind


# The bounds for which an impl of the program stands: how it is found.
MADE_IMPLS = {
    "core::ledger::Ledger": lambda program, machine: blank_ledger(program),
    MACHINE: machine_impl,
    MACHINE_TABLES: machine_tables,
}


def words_of(program):
    """How each type is read from words and written to them."""
    made = []
    for kind, (name, _) in list(program.types.items()):
        load, dump = words_of_type(program, kind, name)
        made.append(
            f"impl Words for {name} {{\n unsafe fn load(words: &mut Reader) -> Self {{ unsafe {{ {load} }} }}\n"
            f" unsafe fn dump(&self, words: &mut Vec<u64>) {{ unsafe {{ {dump} }} }}\n}}"
        )
    return made


def words_of_type(program, kind, name):
    how, parts = program.shape(kind)
    if kind[1] in ERASED:
        return "core::mem::zeroed()", ""
    if kind[1] == "&[]":
        return f"let (f0, f1) = load_list(words); {name} {{ f0, f1 }}", "dump_list(self.f0, self.f1, words)"
    if kind[1] == "std_alloc::vec::Vec":
        element = program.write_type(kind[2][0])
        load = f"let (f0, f1, f2) = load_growing::<{element}>(words); {name} {{ f0: f0 as *mut u8, f1, f2, f3: core::mem::zeroed() }}"
        return load, f"dump_list(self.f0 as *mut {element}, self.f1, words)"
    if kind[1] == "arrayvec::array_vec::ArrayVec":
        element, count = program.write_type(kind[2][0]), kind[2][1][1]
        load = (
            f"let mut it: {name} = core::mem::zeroed(); let (start, len) = load_list::<{element}>(words); it.f1 = len;"
            f" for i in 0..len as usize {{ assert!(i < {count}); it.f0.f0[i] = *start.add(i); }} it"
        )
        return load, f"words.push(self.f1); for i in 0..self.f1 as usize {{ self.f0.f0[i].dump(words); }}"
    if how == "Variants":
        loads, dumps = [], []
        for number, part in enumerate(parts):
            fields = ", ".join(f"f{i + 1}: Words::load(words)" for i in range(len(part)))
            loads.append(f"{number} => {name} {{ v{number}: {name}_{number} {{ f0: {number}, {fields} }} }},")
            dumps.append(f"{number} => {{ {' '.join(f'{{ let it = self.v{number}.f{i + 1}; it.dump(words); }}' for i in range(len(part)))} }}")
        return (
            f"match words.next() {{ {' '.join(loads)} _ => unreachable!() }}",
            f"words.push(u64::from(self.v0.f0)); match self.v0.f0 {{ {' '.join(dumps)} _ => unreachable!() }}" if parts else "",
        )
    fields = ", ".join(f"f{i}: Words::load(words)" for i in range(len(parts)))
    if kind[1] == "shapers_buffer::buffer::hb_buffer_t":
        # (its last four fields are room, of which what is written so far counts)
        parts = parts[:-4]
    return f"{name} {{ {fields} }}", " ".join(f"{{ let it = self.f{i}; it.dump(words); }}" for i in range(len(parts)))


def given_functions(program):
    """The methods of the driver's font, tables, context and properties, by words."""
    for number, (given, trait, _, _) in enumerate(DRIVERS):
        for i, name in enumerate(program.given[given]):
            of = {"Trait": [trait, i]}
            it = next(it for it in program.functions.values() if it["generics"]["method_of"] == of)
            kinds = [program.write_type(program.type_of(local["ty"], (SEED,))) for local in it["locals"][: it["params"] + 1]]
            parameters = ", ".join(f"l{place}: {kind}" for place, kind in enumerate(kinds) if place)
            if kinds[0] == "()":
                # (the only one that changes its arguments reorders marks)
                yield (
                    f"unsafe fn {name}({parameters}) {{ unsafe {{ if *l1 % 2 == 1 "
                    f"{{ core::slice::from_raw_parts_mut(l3.f0, l3.f1 as usize)[l4 as usize..l5 as usize].reverse() }} }} }}"
                )
                continue
            dumps = " ".join(f"l{place}.dump(&mut words);" for place in range(2, len(kinds)))
            yield (
                f"unsafe fn {name}({parameters}) -> {kinds[0]} {{ unsafe {{ let mut words = Vec::new(); {dumps} "
                f"Words::load(&mut Reader(&crate::lots::answer({number}, {i}, *l1, &words))) }} }}"
            )


def entry(program, instance, number):
    """A function that reads the arguments from words, makes the call, and writes what it returns and changes."""
    it = program.functions[instance[0]]
    locals_ = it["locals"][1 : it["params"] + 1]
    kinds = [program.write_type(program.type_of(local["ty"], instance[1])) for local in locals_]
    lets = " ".join(f"let a{i}: {kind} = Words::load(words);" for i, kind in enumerate(kinds))
    dumps = " ".join(f"a{i}.dump(out);" for i, local in enumerate(locals_) if is_mutable(local["ty"]))
    arguments = ", ".join(f"a{i}" for i in range(len(kinds)))
    return (
        f"unsafe fn entry_{number}(words: &mut Reader, out: &mut Vec<u64>) {{ unsafe {{ {lets} "
        f"let returned = {program.name(instance)}({arguments}); returned.dump(out); {dumps} }} }}"
    )


def is_mutable(raw):
    if isinstance(raw, dict) and "Ref" in raw:
        return raw["Ref"][1] == "Mut"
    return isinstance(raw, dict) and "Struct" in raw and raw["Struct"][0] == "&[]" and is_mutable(raw["Struct"][1][0])


def proved_source(program, entries):
    """The module of the proved functions, with what calls them."""
    given = list(given_functions(program))
    calls = [entry(program, instance, number) for number, instance in enumerate(entries.values())]
    table = ", ".join(f'("{name}", entry_{number})' for number, name in enumerate(entries))
    kind = "[(&str, unsafe fn(&mut Reader, &mut Vec<u64>))]"
    head = "#![allow(warnings, clippy::all)]\nuse crate::words::*;\n"
    text = mir_rust.source(program).partition("\n")[2]
    arms = ", ".join(f'("{name}", {number})' for name, number in program.arms)
    text += f"pub static ARMS: &[(&str, u32)] = &[{arms}];\npub static mut HITS: [bool; {len(program.arms)}] = [false; {len(program.arms)}];\n"
    return "\n".join([head, text, *words_of(program), *given, *calls, f"pub static CALLS: &{kind} = &[{table}];", ""])


# -- the copy of the generated modules


class Module:
    """A generated file: its place, its path, and what stands in it."""

    def __init__(self, top, path):
        self.path = path
        self.tokens = trust_forms.tokens_of(path.read_text(encoding="utf8"))
        parts = list(path.relative_to(top).with_suffix("").parts)
        self.place = parts[:-1] if parts[-1] == "mod" else parts
        self.blocks = list(trust_forms.blocks(self.tokens))
        self.children = [self.tokens[i + 1].text for i, it in enumerate(self.tokens) if it.text == "mod" and self.tokens[i + 2].text == ";"]


def text_of(tokens):
    return " ".join(token.text for token in tokens)


def split_at_commas(tokens):
    parts, depth = [[]], 0
    for token in tokens:
        depth += {"<": 1, ">": -1}.get(token.text, 0) + (token.text in trust_forms.OPEN) - (token.text in trust_forms.CLOSE)
        if token.text == "," and not depth:
            parts.append([])
        else:
            parts[-1].append(token)
    return [part for part in parts if part]


class Type:
    """A struct or an enum of the generated modules: its fields or variants with the tokens of their types."""

    def __init__(self, module, i):
        tokens = module.tokens
        self.module, self.name, self.is_enum = module, tokens[i + 1].text, tokens[i].text == "enum"
        at = trust_forms.behind_generics(tokens, i + 2)
        self.generics = [part for part in split_at_commas(tokens[i + 3 : at - 1])] if at > i + 2 else []
        self.parts, self.is_tuple = [], tokens[at].text == "("
        if tokens[at].text in ("{", "("):
            inner = tokens[at + 1 : trust_forms.partner(tokens, at)]
            self.parts = [self.part(part) for part in split_at_commas(inner)]

    def part(self, tokens):
        while tokens and tokens[0].text in ("#", "pub"):
            step = 1
            if tokens[0].text == "#" or len(tokens) > 1 and tokens[1].text == "(":
                step = trust_forms.partner(tokens, 1) + 1
            tokens = tokens[step:]
        if self.is_enum:
            name, behind = tokens[0].text, tokens[1:]
            if not behind or behind[0].text not in ("(", "{"):
                return name, "", []
            fields = split_at_commas(behind[1 : trust_forms.partner(behind, 0)])
            return name, behind[0].text, [(it[0].text, it[2:]) if behind[0].text == "{" else ("", it) for it in fields]
        return ("", tokens) if self.is_tuple else (tokens[0].text, tokens[2:])

    def used(self):
        """The tokens of all its parts' types."""
        if self.is_enum:
            return [token for _, _, fields in self.parts for _, kind in fields for token in kind]
        return [token for _, kind in self.parts for token in kind]


def substitution(parts):
    """What stands for the type parameters of these generics; None where one is no font and no tables."""
    found = {}
    for part in parts:
        if part[0].kind == "lifetime":
            continue
        chosen = CHOSEN.get(part[2].text if len(part) > 2 else "")
        if chosen is None or len(part) > 3:
            return None
        found[part[0].text] = chosen
    return found


class Copy:
    """The copy of the generated modules."""

    def __init__(self, top, names, left_out=()):
        self.left_out, self.top, self.sources = set(left_out), top, {}
        self.modules = [Module(top, path) for path in sorted(top.rglob("*.rs"))]
        self.old = {new: old for old, new in names.items()}
        self.types = [
            Type(module, i)
            for module in self.modules
            for i, it in enumerate(module.tokens)
            if it.kind == "word" and it.text in ("struct", "enum") and module.tokens[i + 1].kind == "word"
        ]
        self.aliases = {}
        self.drawn = STANDARD | BY_HAND
        more = True
        while more:
            ready = {it.name for it in self.types if it.name not in self.drawn | self.left_out and self.can_draw(it)}
            self.drawn |= ready
            more = bool(ready)
        self.home = {}
        for it in self.types:
            self.home.setdefault(it.name, []).append(it)
        self.why, self.entries, self.errors = {}, [], {}
        # The types that a character, a number of 8 or 16 bits, a truth value or a fieldless enum has.
        self.finite = {"char", "u8", "u16", "u32", "bool", "Category", "Position"} | {
            it.name for it in self.types if it.is_enum and it.name in self.drawn and all(not fields for _, _, fields in it.parts)
        }

    def can_draw(self, it):
        found = substitution(it.generics)
        words = {token.text for token in it.used() if token.kind == "word" and token.text not in ("mut", "dyn")}
        alike = [other for other in self.types if other.name == it.name]
        return found is not None and all(words_of_type_in(other) <= self.drawn | set(substitution(other.generics) or ()) for other in alike) and words is not None

    def old_name(self, name):
        return self.old.get(name, name)

    def proved_names(self, module, owner, trait, name, arguments=()):
        """The names that a function may have in the proved program."""
        here = "::".join(module.place)
        if owner is None:
            return [f"{here}::{self.old_name(name)}"]
        # (an impl for each type has its parameter here)
        itself = "Any" if len(owner) == 1 else self.old_name(owner)
        kind = itself + (self.old_name(trait) if trait else "") + "".join(map(self.old_name, arguments))
        homes = ["::".join(it.module.place) for it in self.home.get(owner, []) if it.module.place[0] == module.place[0]]
        return [f"{place}::{kind}::{self.old_name(name)}" for place in [here, *homes]]

    def harness(self, module, known):
        """What is added to a module: how its types are drawn and written, and its functions called."""
        made, calls = [], []
        for it in self.types:
            if it.module is module and it.name in self.drawn and substitution(it.generics) is not None:
                made += self.with_machines(text_of(sum(it.generics, [])), lambda suffix: self.of_type(it))
        for it in trust_forms.functions(module.path, module.tokens):
            made_of = lambda suffix: (*self.of_function(module, it, known, suffix), self.whole)
            for name, call, whole in self.with_machines(self.generics_of(module, it), made_of):
                if call:
                    calls.append((name, call, whole))
        for it in self.types:
            if it.module is module and it.name in self.drawn and not it.generics:
                calls += [(name, call, []) for name, call in self.of_derived(it, known)]
        free = {name for name, _, _ in calls if self.is_free(module, name.rpartition("::")[2].partition("[")[0])}
        number = len(self.entries)
        lines = ["", "// what calls the functions of this module", "use crate::harness::*;"]
        lines += made + [f"fn call_{number + i}{call}" for i, (_, call, _) in enumerate(calls)]
        pushes = [
            f'list.push(Function {{ name: "{name}", call: call_{number + i}, whole: {self.counts(whole)}, '
            f"is_free: {str(name in free).lower()}, memory: &{MEMORY.get(self.errors.get(name), [])} }});"
            for i, (name, _, whole) in enumerate(calls)
        ]
        children = [f"{child}::all_functions(list);" for child in module.children]
        lines.append("pub(crate) fn all_functions(list: &mut ::std::vec::Vec<Function>) { " + " ".join(pushes + children) + " }")
        self.entries += [name for name, _, _ in calls]
        return "\n".join(lines) + "\n"

    def with_machines(self, generics, make):
        """What is made where there is no machine among these generics, or for each machine."""
        if "Machine" not in generics:
            return [make("")]
        made = []
        for machine in MACHINES:
            CHOSEN["Machine"] = CHOSEN["MachineTables"] = machine
            made.append(make(f"[{machine}]"))
        return made

    def block_of(self, module, it):
        """The impl or the trait that a function stands in, if any."""
        return next(((first, last, trait, of) for first, last, trait, of in reversed(module.blocks) if first < it.first < last), None)

    def generics_of(self, module, it):
        """The generics of a function and of its impl, as text."""
        tokens, block = module.tokens, self.block_of(module, it)
        starts = [max(i for i in range(it.first) if tokens[i].text == "fn" and tokens[i + 1].text == it.name) + 2]
        starts += [block[0] + 1] if block and tokens[block[0]].text == "impl" else []
        return " ".join(text_of(tokens[at : trust_forms.behind_generics(tokens, at)]) for at in starts)

    def is_free(self, module, name):
        """Whether no function of this name in the source requires anything of its caller; methods of traits may."""
        if any(name == it.name and it.traits for it in trust_forms.functions(module.path, module.tokens)):
            return False
        parts = list(module.path.relative_to(self.top).with_suffix(".rt").parts)
        parts[-1] = "lib.rt" if parts[-1] == "mod.rt" else parts[-1]
        source = self.top.parents[3] / "crates" / parts[0] / "src" / pathlib.Path(*parts[1:])
        if source not in self.sources:
            self.sources[source] = trust_forms.tokens_of(source.read_text(encoding="utf8")) if source.exists() else []
        tokens = self.sources[source]
        starts = [i for i, token in enumerate(tokens) if token.text == "fn" and tokens[i + 1].text == name]
        ends = [next((j for j in range(i + 1, len(tokens)) if tokens[j].text == "fn" and tokens[j + 1].kind == "word"), len(tokens)) for i in starts]
        return bool(starts) and not any(token.text in ("requires", "invariant") for i, j in zip(starts, ends) for token in tokens[i:j])

    def counts(self, whole):
        """How many arguments there are, where they can all be given."""
        counts = [f"<{kind} as Whole>::COUNT" for kind in whole]
        return f"crate::harness::count_of(&[{', '.join(counts)}])" if whole else "0"

    def of_type(self, it):
        found = substitution(it.generics)
        arguments = ["'static" if part[0].kind == "lifetime" else found[part[0].text] for part in it.generics]
        whole = it.name + (f"<{', '.join(arguments)}>" if arguments else "")
        borrowed = whole.replace("'static", "'_")
        lines = []
        if it.is_enum:
            draws, dumps = [], []
            for number, (name, opening, fields) in enumerate(it.parts):
                labels = [label for label, _ in fields]
                if opening == "{":
                    draws.append(f"{number} => {it.name}::{name} {{ {', '.join(f'{label}: Draw::draw(choices)' for label in labels)} }},")
                    dumps.append(f"{it.name}::{name} {{ {', '.join(labels)} }} => {{ words.push({number}); {' '.join(f'{label}.dump(words);' for label in labels)} }}")
                else:
                    inner = f"({', '.join('Draw::draw(choices)' for _ in fields)})" if fields else ""
                    bound = f"({', '.join(f'p{i}' for i in range(len(fields)))})" if fields else ""
                    draws.append(f"{number} => {it.name}::{name}{inner},")
                    dumps.append(f"{it.name}::{name}{bound} => {{ words.push({number}); {' '.join(f'p{i}.dump(words);' for i in range(len(fields)))} }}")
            draw = f"match choices.below({len(it.parts)}) {{ {' '.join(draws)} _ => unreachable!() }}"
            dump = f"match self {{ {' '.join(dumps)} }}"
        elif it.is_tuple:
            draw = f"{it.name}({', '.join('Draw::draw(choices)' for _ in it.parts)})"
            dump = " ".join(f"self.{i}.dump(words);" for i in range(len(it.parts)))
        else:
            draw = f"{it.name} {{ {', '.join(f'{label}: Draw::draw(choices)' for label, _ in it.parts)} }}"
            dump = " ".join(f"self.{label}.dump(words);" for label, _ in it.parts)
            if it.name == "Buffer":
                dump = dump.replace("self.places", "if is_input() { self.places") + " }"
        lines.append(f"impl Dump for {borrowed} {{ fn dump(&self, words: &mut ::std::vec::Vec<u64>) {{ {dump} }} }}")
        if it.is_enum and it.name in self.finite:
            arms = " ".join(f"{number} => Some({it.name}::{name})," for number, (name, _, _) in enumerate(it.parts))
            lines.append(
                f"impl Whole for {it.name} {{ const COUNT: u64 = {len(it.parts)};"
                f" fn nth(number: u64) -> Option<Self> {{ match number {{ {arms} _ => None }} }} }}"
            )
        if it.name not in BY_HAND:
            lines.append(f"impl Draw for {whole} {{ fn draw(choices: &mut Choices) -> Self {{ {draw} }} }}")
        return "\n".join(lines)

    def of_derived(self, it, known):
        calls = []
        for method, modes in DERIVED.items():
            trait, function = method.split("::")
            name = f"{'::'.join(it.module.place)}::{self.old_name(it.name)}{trait}::{function}"
            if name in known and name not in self.left_out:
                path = f"<{it.name} as {trait}>::{function}" if trait in PRELUDE else f"::core::ops::{trait}::{function}"
                calls.append((name, self.calling(path, [(it.name, mode) for mode in modes.split()])))
        return calls

    def of_function(self, module, it, known, suffix):
        """The name of a function in the proved program, with what stands behind it for a machine, and the body of what
        calls it, or None where it isn't called."""
        tokens, block = module.tokens, self.block_of(module, it)
        start = max(i for i in range(it.first) if tokens[i].text == "fn" and tokens[i + 1].text == it.name)
        owner, trait = it.owner, it.traits
        words = re.findall(r"\w+", (self.trait_path(module, block) or "").partition("<")[2]) if block and trait else []
        names = self.proved_names(module, owner, trait, it.name) + self.proved_names(module, owner, trait, it.name, words)
        name = next((one + suffix for one in names if one + suffix in known), names[0] + suffix)
        if block and block[3] is None:
            of = CHOSEN.get(trait or owner)
            if of is None or (trait or owner) == "Machine":
                self.why[name] = "a provided method of a trait"
                return name, None
            block = (*block[:2], trait or owner, [of])
            name = f"{'::'.join(module.place)}::{self.old_name(trait or owner)}::{it.name}"
        if name in self.left_out:
            self.why[name] = "what would call it doesn't compile"
            return name, None
        try:
            call = self.calling_of(module, it, block, start)
            self.errors[name] = self.error
            return name, call
        except mir_rust.Unwritten as error:
            self.why[name] = str(error)
            return name, None

    def calling_of(self, module, it, block, start):
        tokens, found, whole = module.tokens, {}, None
        if block and tokens[block[0]].text == "trait":
            whole = block[3][0]
        elif block:
            first = block[0]
            at = trust_forms.behind_generics(tokens, first + 1)
            generics = split_at_commas(tokens[first + 2 : at - 1]) if at > first + 1 else []
            found = substitution(generics)
            if found is None:
                raise mir_rust.Unwritten("its impl is for every type")
            whole = self.put_in(block[3], found)
            self.check(block[3], found)
        opening = trust_forms.behind_generics(tokens, start + 2)
        generics = split_at_commas(tokens[start + 3 : opening - 1]) if opening > start + 2 else []
        own = substitution(generics)
        if own is None or any(len(part) == 1 and part[0].kind == "word" for part in generics):
            raise mir_rust.Unwritten("it is for every type")
        found = {**found, **own}
        parameters = []
        for part in split_at_commas(tokens[opening + 1 : trust_forms.partner(tokens, opening)]):
            words = [token.text for token in part]
            if "self" in words and ":" not in words:
                mode = "!" if words[0] == "&" and "mut" in words else "&" if words[0] == "&" else "."
                parameters.append((whole, mode))
                continue
            colon = words.index(":")
            parameters.append(self.parameter(words[colon + 1 :], found, whole))
        behind = trust_forms.partner(tokens, opening) + 1
        returned = [token.text for token in tokens[behind : it.first] if not token.text.startswith("'")]
        self.check(returned[: returned.index("where")] if "where" in returned else returned, {**found, "Self": ""})
        self.error = "".join(returned).rpartition(",")[2].rstrip(">") if "Result" in returned else ""
        path = it.name
        if block:
            traits = self.trait_path(module, block)
            path = f"<{whole} as {traits}>::{it.name}" if traits else f"<{whole}>::{it.name}"
        return self.calling(path, parameters)

    def trait_path(self, module, block):
        first, _, trait, _ = block
        if trait is None or module.tokens[first].text == "trait":
            return trait
        at, words, depth = trust_forms.behind_generics(module.tokens, first + 1), [], 0
        while module.tokens[at].text != "for" or depth:
            depth += {"<": 1, ">": -1}.get(module.tokens[at].text, 0)
            words.append(module.tokens[at].text)
            at += 1
        return " ".join(words)

    def put_in(self, words, found):
        """A type's text, with what stands for parameters, and with lifetimes that don't end."""
        out = []
        for i, word in enumerate(words):
            if word.startswith("'"):
                out.append("'static")
            elif word == "&":
                out.append("&" if i + 1 < len(words) and words[i + 1].startswith("'") else "&'static")
            else:
                out.append(found.get(word, word))
        return " ".join(out).replace("' static", "'static")

    def check(self, words, found):
        for word in words:
            is_constant = word.isupper() and len(word) > 2
            if re.match(r"[A-Za-z_]", word) and not is_constant and word not in self.drawn | {"mut"} and word not in found and word != "Self":
                raise mir_rust.Unwritten(f"nothing draws the type {word}")

    def parameter(self, words, found, whole):
        """The owned type of a parameter and how it is passed: by value '.', by reference '&', to be changed '!', as slices '[&' and '[!'."""
        if whole:
            found = {**found, "Self": whole}
        self.check(words, found)
        if words[0] != "&":
            return self.put_in(words, found), "."
        words = words[2:] if words[1].startswith("'") else words[1:]
        mode = "!" if words[0] == "mut" else "&"
        words = words[1:] if words[0] == "mut" else words
        if words == ["str"]:
            return "::std::string::String", mode
        if words[0] == "[" and ";" not in words:
            return f"::std::vec::Vec<{self.put_in(words[1:-1], found)}>", "[" + mode
        return self.put_in(words, found), mode

    def calling(self, path, parameters):
        """The body of a function that draws arguments, makes the call, and writes what it returns and changes."""
        lets, passed, dumps = [], [], []
        kinds = [kind for kind, mode in parameters if mode in ".&"]
        self.whole = kinds if kinds and len(kinds) == len(parameters) and all(kind in self.finite for kind in kinds) else []
        for i, (kind, mode) in enumerate(parameters):
            drawn = f"whole_or_drawn::<{kind}>(choices)" if self.whole else "Draw::draw(choices)"
            # (of two values that are compared, the second is mostly made of the numbers that the first was)
            twin = i == 1 and path.endswith("PartialEq>::eq") and not self.whole
            lets += ["let from = choices.at;"] if i == 0 else []
            drawn = "choices.twin(from)" if twin else drawn
            lets.append(f"let mut a{i}: {kind} = {drawn}; a{i}.dump(input);")
            passed.append({".": f"a{i}", "&": f"&a{i}", "!": f"&mut a{i}", "[&": f"&a{i}[..]", "[!": f"&mut a{i}[..]"}[mode])
            if mode.endswith("!"):
                dumps.append(f"a{i}.dump(output);")
        return (
            "(choices: &mut Choices, input: &mut ::std::vec::Vec<u64>, output: &mut ::std::vec::Vec<u64>) {\n"
            f"    set_input(true); {' '.join(lets)} set_input(false); COPY.watch(true);\n    let returned = {path}({', '.join(passed)}); COPY.watch(false);\n"
            f"    returned.dump(output); {' '.join(dumps)}\n}}"
        )


def words_of_type_in(it):
    return {token.text for token in it.used() if token.kind == "word" and token.text != "mut"}


def make(top, folder, libraries, kit, left_out=()):
    """Makes both crates in a folder, without what calls some functions and draws some types; returns what was made."""
    table = (top / "rust/erase/table.txt").read_text(encoding="utf8").splitlines()
    names = dict(line.split()[1:] for line in table if line.startswith("name "))
    program, entries, why, own = proved(libraries, kit)
    here = top / "checks/functions_rs"
    twice = folder / "twice/src"
    twice.mkdir(parents=True, exist_ok=True)
    write(twice / "proved.rs", proved_source(program, entries))
    for name in ("lots.rs", "words.rs"):
        write(twice / name, (here / name).read_text(encoding="utf8"))
    write(twice / "lib.rs", "pub mod lots;\npub mod proved;\npub mod words;\n")
    source = folder / "copy/src"
    copy = Copy(top / "rust/sengadlit/src/generated", names, left_out)
    wanted = set()
    for path in sorted((top / "rust/sengadlit/src").rglob("*.rs")):
        to = source / path.relative_to(top / "rust/sengadlit/src")
        text = path.read_text(encoding="utf8")
        module = next((it for it in copy.modules if it.path == path), None)
        if module:
            text += copy.harness(module, entries)
        # (nobody reads the copy's pages)
        text = re.sub(r"#!?\[doc = include_str!.*\n", "", text)
        if path == top / "rust/sengadlit/src/lib.rs":
            text = in_copy(text, copy)
        write(to, text)
        wanted.add(to)
    write(source / "harness.rs", (here / "harness.rs").read_text(encoding="utf8"))
    write(folder / "compare/src/main.rs", (here / "main.rs").read_text(encoding="utf8"))
    wanted.add(source / "harness.rs")
    for path in source.rglob("*.rs"):
        if path not in wanted:
            path.unlink()
    for name, text in MANIFESTS.items():
        write(folder / name, text)
    return copy, program, entries, why, own


def in_copy(text, copy):
    """The crate's root, in which all that is drawn can be reached."""
    roots = [it.place[0] for it in copy.modules if len(it.place) == 1]
    calls = " ".join(f"generated::{name}::all_functions(list);" for name in roots)
    text = text.replace("#![no_std]", "#![allow(warnings)]").replace("#![deny(missing_docs, missing_debug_implementations)]", "")
    text = text.replace("#[cfg(any(test, feature = \"std\"))]\nextern crate std;", "extern crate std;")
    text = text.replace("extern crate alloc as rust_alloc;", "extern crate alloc as rust_alloc;\nextern crate self as sengadlit;")
    text = re.sub(r"/// The code of README.md.*?struct Readme;", "", text, flags=re.S)
    return text + f"\npub mod harness;\n\npub(crate) fn all_functions(list: &mut std::vec::Vec<harness::Function>) {{ {calls} }}\n"


def write(path, text):
    """Writes a file, unless that is what it holds."""
    path.parent.mkdir(parents=True, exist_ok=True)
    if not path.exists() or path.read_text(encoding="utf8") != text:
        path.write_text(text, encoding="utf8")


COPY = """[package]
name = "{}"
version = "0.0.0"
edition = "2024"

[features]
default = ["std", "tables", "text", "opentype"]
std = []
tables = []
text = ["tables"]
opentype = ["text"]

[dependencies]
twice = {{ path = "../twice" }}
{}"""

COMPARE = """[package]
name = "{}"
version = "0.0.0"
edition = "2024"
{}
[dependencies]
copy = {{ path = "../{}", package = "{}" }}
twice = {{ path = "../twice" }}
"""

MANIFESTS = {
    "Cargo.toml": """[workspace]
resolver = "3"
members = ["copy", "released", "twice", "compare", "compare_released"]

[profile.dev]
debug = false
opt-level = 1
incremental = false

[profile.dev.package.released]
opt-level = 3
overflow-checks = false
debug-assertions = false
""",
    "copy/Cargo.toml": COPY.format("copy", ""),
    # (the same once more, as for release: the proved functions are built once)
    "released/Cargo.toml": COPY.format("released", '\n[lib]\npath = "../copy/src/lib.rs"\n'),
    "twice/Cargo.toml": '[package]\nname = "twice"\nversion = "0.0.0"\nedition = "2024"\n',
    "compare/Cargo.toml": COMPARE.format("compare", "", "copy", "copy"),
    "compare_released/Cargo.toml": COMPARE.format(
        "compare_released", '\n[[bin]]\nname = "compare_released"\npath = "../compare/src/main.rs"\n', "released", "released"
    ),
}
