"""Writes the functions that Rattle's compiler proved as Rust, over raw pointers: a second way from the proof to rustc.

A built library holds its functions as lists of statements with every call resolved (toolchain/mir.json). A function
with type parameters is written once for each choice of types and impls that something calls it with. Nothing of
the sources' text has a part in this: no look-up of names, no inference, no syntax.

No page of the toolchain describes mir.json, and the next kit may change it. It is read all the same, because it alone
holds each function, private ones too, as the compiler resolved it. To parse the sources here instead would repeat the
eraser's reading of them, and with it a mistake of the eraser's. checks/programs runs the proved program, which needs no
such form, but calls few functions by themselves and counts no branch. A statement or a type that isn't known here raises
Unwritten, so that after a change of the form functions are told as not compared, and checks/functions fails where they
are more than a few; none is compared with something else.

To do without it would take a description of the form by the toolchain, with a version; or its own output of each function
as C or Rust; or, with what is documented, a crate of Rattle whose type is a static library, with a C function written
by hand around each public function and each choice of its types. That leaves out private functions and counts of
branches.
"""

import json
import re


class Unwritten(Exception):
    """Why a function can't be written."""


def read_library(path):
    with open(path, encoding="utf8") as file:
        return dict(json.load(file))


class Statements:
    """A function's statements as a tree; they are stored in the order in which they begin."""

    def __init__(self, flat):
        self.flat, self.at = flat, 0

    def next(self):
        item = self.flat[self.at]
        self.at += 1
        kind, value = (item, None) if isinstance(item, str) else next(iter(item.items()))
        parts = {"Seq": 2, "Block": 1, "Loop": 1, "If": 2}.get(kind, 0)
        if kind == "Switch":
            parts = len(value[1]) + bool(value[2])
        return kind, value, [self.next() for _ in range(parts)]


# Types: ("Int", width), ("Ref", type), ("Array", type, length), ("Struct", name, types), ("Named", name, arguments),
# ("Const", number), and these.
UNIT, BOOL, POINTER = ("Unit",), ("Bool",), ("Ptr",)
WORD = ("Int", 64)


class Program:
    """The libraries' functions, and what of them has been written."""

    def __init__(self, libraries, given=None):
        self.functions = {name: it for library in libraries for name, it in library.items()}
        self.declared, self.impls = {}, {}
        for it in self.functions.values():
            for kind in it["types"]:
                self.declared.setdefault(kind["name"], kind)
            for impl in it["generics"]["impls"]:
                self.impls.setdefault(impl["name"], impl["methods"])
        for name, it in self.functions.items():
            of = it["generics"]["method_of"]
            if of and "Impl" in of:
                own, place = of["Impl"]
                methods = self.impls.setdefault(own, [])
                if isinstance(methods, list) and len(methods) <= place:
                    methods.extend([None] * (place + 1 - len(methods)))
                methods[place] = name
        # The Rust functions that stand for those of C; each is passed the function's own arguments.
        self.foreign = {}
        # Impls that the driver has: for each the Rust functions of its methods.
        self.given = given or {}
        self.names, self.types, self.texts, self.why, self.calls = {}, {}, {}, {}, {}
        # The functions whose arms are counted, and each arm: its function, and which of its branches it is.
        self.counted, self.arms = set(), []

    # -- types

    def type_of(self, raw, types):
        """A type as it stands in a function, with the function's own types put in."""
        if isinstance(raw, str):
            return (raw,)
        kind, value = next(iter(raw.items()))
        if kind == "Param":
            return types[value]
        if kind in ("Int", "Const", "Lit"):
            return ("Int", value) if kind == "Int" else ("Const", value if isinstance(value, int) else int(value["value"]))
        if kind == "Ref":
            return ("Ref", self.type_of(value[2], types))
        if kind == "Array":
            return ("Array", self.type_of(value[0], types), self.length(value[1], types))
        if kind == "Struct":
            return ("Struct", value[0], tuple(self.type_of(it, types) for it in value[1]))
        if kind == "Named":
            return ("Named", value[0]["name"], tuple(self.type_of(it, types) for it in value[1]))
        raise Unwritten(f"a type of kind {kind}")

    def length(self, raw, types):
        if isinstance(raw, int):
            return raw
        found = self.type_of(raw, types)
        return found[1]

    def shape(self, kind):
        """A type's fields, or the fields of its variants: ("Fields", types) or ("Variants", lists of types)."""
        if kind[0] == "Struct":
            return "Fields", list(kind[2])
        declared = self.declared.get(kind[1])
        if declared is None:
            raise Unwritten(f"the type {kind[1]}, which no library declares")
        how, parts = next(iter(declared["shape"].items()))
        if how == "Fields":
            return how, [self.type_of(it, kind[2]) for it in parts]
        if how == "Variants":
            return how, [[self.type_of(it, kind[2]) for it in part] for part in parts]
        raise Unwritten(f"a type whose shape is {how}")

    def write_type(self, kind):
        """The type's name in Rust, which is written where it is new."""
        simple = {"Unit": "()", "Bool": "bool", "Ptr": "*mut u8"}
        if kind[0] in simple:
            return simple[kind[0]]
        if kind[0] == "Int":
            return f"u{kind[1]}"
        if kind[0] == "Ref":
            return f"*mut {self.write_type(kind[1])}"
        if kind[0] == "Array":
            return f"[{self.write_type(kind[1])}; {kind[2]}]"
        if kind[0] not in ("Named", "Struct"):
            raise Unwritten(f"a type of kind {kind[0]}")
        if kind not in self.types:
            name = f"T{len(self.types)}"
            self.types[kind] = name, ""
            how, parts = self.shape(kind)
            about = f"// {kind[1]}\n"
            if how == "Fields":
                text = about + self.struct(name, parts)
            else:
                variants = [self.struct(f"{name}_{i}", [("Int", 8), *part]) for i, part in enumerate(parts)]
                fields = ", ".join(f"pub v{i}: {name}_{i}" for i in range(len(parts)))
                text = about + "\n".join(variants) + f"\n#[repr(C)] #[derive(Clone, Copy)] pub union {name} {{ {fields} }}"
            self.types[kind] = name, text
        return self.types[kind][0]

    def struct(self, name, parts):
        fields = ", ".join(f"pub f{i}: {self.write_type(part)}" for i, part in enumerate(parts))
        return f"#[repr(C)] #[derive(Clone, Copy)] pub struct {name} {{ {fields} }}"

    # -- impls

    def impl_of(self, raw, dicts, types):
        """The impl that a call names, with the function's own put in: its name, types and impls."""
        kind, value = next(iter(raw.items()))
        if kind == "Given":
            return dicts[value]
        if kind != "Impl":
            raise Unwritten(f"an impl of kind {kind}")
        name, own_types, own_dicts = value
        return name, tuple(self.type_of(it, types) for it in own_types), tuple(self.impl_of(it, dicts, types) for it in own_dicts)

    def callee(self, raw, instance):
        """The name, types and impls of the function that a call names."""
        _, types, dicts = instance
        kind, value = next(iter(raw.items()))
        if kind not in ("Fn", "Method"):
            raise Unwritten(f"a call of kind {kind}")
        generics = value[-1]
        more_types = tuple(self.type_of(it, types) for it in generics["types"])
        more_dicts = tuple(self.impl_of(it, dicts, types) for it in generics["dicts"])
        if kind == "Fn":
            return value[0], more_types, more_dicts
        name, own_types, own_dicts = self.impl_of(value[0], dicts, types)
        if name in self.given:
            return f"{name}#{value[1]}", (), ()
        methods = self.impls.get(name) or []
        if len(methods) <= value[1] or not methods[value[1]]:
            raise Unwritten(f"a method of {name}, whose list no library has")
        return methods[value[1]], own_types + more_types, own_dicts + more_dicts

    # -- functions

    def write(self, instance):
        """Writes a function and all that it calls; returns its name in Rust."""
        todo = [instance]
        while todo:
            it = todo.pop()
            if it not in self.texts and it not in self.why:
                try:
                    self.texts[it], self.calls[it] = Writer(self, it).text()
                    todo += self.calls[it]
                except Unwritten as error:
                    self.why[it] = str(error)
        return self.name(instance)

    def name(self, instance):
        if instance not in self.names:
            base = re.sub(r"\W+", "_", instance[0])
            self.names[instance] = f"f{len(self.names)}_{base}"
        return self.names[instance]

    def leave_out(self):
        """Leaves out each function that calls one that can't be written, and says why."""
        more = True
        while more:
            more = False
            for it, calls in list(self.calls.items()):
                bad = next((to for to in calls if to in self.why), None)
                if bad is not None:
                    self.why[it] = self.why[bad] if self.why[bad].startswith("calls") else f"calls {bad[0]}: {self.why[bad]}"
                    del self.texts[it], self.calls[it]
                    more = True


class Writer:
    """One function, being written."""

    def __init__(self, program, instance):
        self.program, self.instance = program, instance
        name, self.types, self.dicts = instance
        if name not in program.functions:
            raise Unwritten("no library has its body")
        self.function = program.functions[name]
        self.locals = [program.type_of(it["ty"], self.types) for it in self.function["locals"]]
        self.calls, self.labels, self.statics, self.branches = [], 0, 0, 0

    def text(self):
        statements = Statements(self.function["body"])
        body = self.statement(statements.next(), [])
        if statements.at != len(self.function["body"]):
            raise Unwritten("statements behind its end")
        count = self.function["params"]
        kinds = [self.program.write_type(kind) for kind in self.locals]
        arguments = ", ".join(f"mut l{i}: {kinds[i]}" for i in range(1, count + 1))
        rest = [0, *range(count + 1, len(kinds))]
        lets = "".join(f"let mut l{i}: {kinds[i]} = core::mem::zeroed();\n" for i in rest)
        name = self.program.name(self.instance)
        return f"// {self.instance[0]}\npub unsafe fn {name}({arguments}) -> {kinds[0]} {{ unsafe {{\n{lets}{body}\n}} }}", self.calls

    def statement(self, it, scopes):
        kind, value, parts = it
        if kind == "Seq":
            # (a long run of statements is written without going deeper)
            texts = []
            while it[0] == "Seq":
                texts.append(self.statement(it[2][0], scopes))
                it = it[2][1]
            return "\n".join([*texts, self.statement(it, scopes)])
        if kind in ("Block", "Loop"):
            self.labels += 1
            label = f"'a{self.labels}"
            word = "loop " if kind == "Loop" else ""
            # (to leave a loop's body is to go round again; a loop ends where a block around it is left)
            leaving = f"{'continue' if word else 'break'} {label};"
            return f"{label}: {word}{{\n{self.statement(parts[0], [leaving, *scopes])}\n}}"
        if kind == "If":
            arms = [self.arm(part, scopes) for part in parts]
            return f"if {self.operand(value)[0]} {{\n{arms[0]}\n}} else {{\n{arms[1]}\n}}"
        if kind == "Switch":
            arms = [" | ".join(map(str, numbers)) for numbers in value[1]]
            arms += ["_"] if value[2] else []
            texts = [f"{arm} => {{\n{self.arm(part, scopes)}\n}}" for arm, part in zip(arms, parts)]
            rest = "" if value[2] else "\n_ => unreachable!(),"
            return f"match {self.operand(value[0])[0]} {{\n" + "\n".join(texts) + rest + "\n}"
        return self.simple(kind, value, scopes)

    def arm(self, it, scopes):
        """An arm of a branch; it tells that it was reached, if the function's are counted. One that a contract
        excludes isn't: it is proved never to be reached."""
        self.branches += 1
        number = self.branches
        text = self.statement(it, scopes)
        is_excluded = re.match(r"l\d+ = f\d+_core_assertions_unreachable\(|unreachable!", text)
        if is_excluded or self.instance[0] not in self.program.counted:
            return text
        self.program.arms.append((self.instance[0], number))
        return f"HITS[{len(self.program.arms) - 1}] = true;\n{text}"

    def simple(self, kind, value, scopes):
        if kind == "Skip":
            return ""
        if kind == "Return":
            return "return l0;"
        if kind == "Unreachable":
            return "unreachable!();"
        if kind == "Exit":
            return scopes[value]
        if kind == "Assign":
            place, wanted = self.place(value[0])
            return f"{place} = {self.value(value[1], wanted)};"
        if kind == "LendStatic":
            return self.static(*value)
        if kind == "Foreign":
            count = self.function["params"]
            return f"return core::mem::transmute_copy(&{self.program.foreign[value['symbol']]}({', '.join(f'l{i}' for i in range(1, count + 1))}));"
        if kind == "Call":
            return self.call(*value)
        raise Unwritten(f"a statement {kind}")

    def call(self, raw, arguments, to):
        callee = self.program.callee(raw, self.instance)
        place, wanted = self.place(to)
        given = [self.operand(it) for it in arguments]
        name, _, number = callee[0].partition("#")
        if number:
            function = self.program.given[name][int(number)]
            return f"{place} = {function}({', '.join(text + ' as _' for text, _ in given)});"
        self.calls.append(callee)
        inner = self.program.functions.get(callee[0])
        if inner is None:
            raise Unwritten(f"calls {callee[0]}: no library has its body")
        texts = []
        for (text, kind), local in zip(given, inner["locals"][1:]):
            needed = self.program.type_of(local["ty"], callee[1])
            texts.append(f"{text} as _" if needed != kind and needed[0] in ("Ptr", "Ref") else text)
        return f"{place} = {self.program.name(callee)}({', '.join(texts)});"

    def static(self, to, raw, value):
        kind = self.program.type_of(raw, self.types)
        place, _ = self.place(to)
        self.statics += 1
        name, written = f"S{self.statics}", self.program.write_type(kind)
        made = self.constant(value, kind, f"(&raw mut {name})")
        return (
            f"static mut {name}: core::mem::MaybeUninit<{written}> = core::mem::MaybeUninit::uninit();\n"
            f"static mut {name}_MADE: bool = false;\n"
            f"if !{name}_MADE {{ (&raw mut {name}).write(core::mem::MaybeUninit::new({made})); {name}_MADE = true; }}\n{place} = (&raw mut {name}) as *mut _;"
        )

    def constant(self, value, kind, start):
        """A static's value; `start` is where the static begins, in which it may point."""
        how, inner = (value, None) if isinstance(value, str) else next(iter(value.items()))
        if how == "Here":
            return f"({start} as *mut u8).wrapping_add({inner}) as *mut _"
        if how == "Int":
            return f"{inner['value']}u{inner['width']}"
        if how == "Bool":
            return str(inner).lower()
        if how == "Unit":
            return "()"
        if how == "Ints":
            return "[" + ", ".join(f"{it}u{inner['width']}" for it in inner["values"]) + "]"
        if how == "Repeat":
            return f"[{self.constant(inner[0], kind[1], start)}; {inner[1]}]"
        if how != "Parts":
            raise Unwritten(f"a static's value of kind {how}")
        if kind[0] == "Array":
            return "[" + ", ".join(self.constant(it, kind[1], start) for it in inner) + "]"
        form, parts = self.program.shape(kind)
        if form == "Variants":
            number = int(inner[0]["Int"]["value"])
            parts = [("Int", 8), *parts[number]]
            return self.variant(kind, number, [self.constant(it, part, start) for it, part in zip(inner, parts)])
        return self.record(kind, [self.constant(it, part, start) for it, part in zip(inner, parts)])

    def record(self, kind, values):
        return f"{self.program.write_type(kind)} {{ " + ", ".join(f"f{i}: {it}" for i, it in enumerate(values)) + " }"

    def variant(self, kind, number, values):
        name = self.program.write_type(kind)
        fields = ", ".join(f"f{i}: {it}" for i, it in enumerate(values))
        return f"{name} {{ v{number}: {name}_{number} {{ {fields} }} }}"

    def place(self, raw):
        """A place as Rust, and its type."""
        kind, text, variant = self.locals[raw["local"]], f"l{raw['local']}", None
        for step in raw["steps"]:
            how, value = next(iter(step.items()))
            if how == "Deref":
                kind = self.program.type_of(value, self.types)
                text = f"(*({text} as *mut {self.program.write_type(kind)}))"
            elif how == "Variant":
                text, variant = f"{text}.v{value}", value
            elif how == "Field":
                self.program.write_type(kind)
                form, parts = self.program.shape(kind)
                fields = parts if form == "Fields" else [("Int", 8), *parts[variant]]
                text, kind, variant = f"{text}.f{value}", fields[value], None
            else:
                raise Unwritten(f"a step {how}")
        return text, kind

    def operand(self, raw):
        """An operand as Rust, and its type."""
        if raw in ("True", "False"):
            return raw.lower(), BOOL
        if raw == "Unit":
            return "()", UNIT
        how, value = next(iter(raw.items()))
        if how in ("Copy", "Move"):
            return self.place(value)
        if how == "Int":
            return f"{value['value']}u{value['width']}", ("Int", value["width"])
        if how == "SizeOf":
            return f"(core::mem::size_of::<{self.program.write_type(self.program.type_of(value, self.types))}>() as u64)", WORD
        if how == "AlignOf":
            return f"(core::mem::align_of::<{self.program.write_type(self.program.type_of(value, self.types))}>() as u64)", WORD
        if how == "NumOf":
            return f"{self.program.length(value[1], self.types)}u{value[0]}", ("Int", value[0])
        raise Unwritten(f"an operand {how}")

    def value(self, raw, wanted):
        how, value = next(iter(raw.items()))
        if how == "Opd":
            text, kind = self.operand(value)
            return f"{text} as _" if kind != wanted and wanted[0] in ("Ptr", "Ref") else text
        if how == "AddrOf":
            return f"(&raw mut {self.place(value)[0]}) as *mut _"
        if how == "Repeat":
            return f"[{self.operand(value[0])[0]}; {self.program.length(value[1], self.types)}]"
        if how == "Aggregate":
            return self.aggregate([self.operand(it) for it in value], wanted)
        if how == "Op1":
            return self.unary(value[0], *self.operand(value[1]))
        if how == "Op2":
            return self.binary(value[0], self.operand(value[1]), self.operand(value[2]))
        raise Unwritten(f"a value of kind {how}")

    def aggregate(self, values, wanted):
        texts = [text for text, _ in values]
        if wanted[0] == "Array":
            return f"[{', '.join(texts)}]"
        form, parts = self.program.shape(wanted)
        number = None
        if form == "Variants":
            number = int(re.match(r"\d+", texts[0]).group())
            parts = [("Int", 8), *parts[number]]
        texts = [f"{text} as _" if part[0] in ("Ptr", "Ref") else text for text, part in zip(texts, parts)]
        return self.record(wanted, texts) if number is None else self.variant(wanted, number, texts)

    def unary(self, how, text, kind):
        if how == "Not":
            return f"!{text}"
        if how == "Neg":
            return f"{text}.wrapping_neg()"
        if how in ("TrailingZeros", "LeadingZeros", "CountOnes"):
            function = {"TrailingZeros": "trailing_zeros", "LeadingZeros": "leading_zeros", "CountOnes": "count_ones"}[how]
            # (each returns a u32, whatever width it counts in, and so does what was proved)
            return f"{text}.{function}()"
        if isinstance(how, dict) and "Cast" in how:
            source, _, width = how["Cast"]
            if source == "Signed":
                return f"{text} as i{kind[1]} as i{width} as u{width}"
            return f"{text} as u{width}"
        raise Unwritten(f"an operator {json.dumps(how)}")

    def binary(self, how, left, right):
        (a, kind), (b, _) = left, right
        if how == "Offset":
            return f"({a} as *mut u8).wrapping_add({b} as usize) as *mut _"
        plain = {"Eq": "==", "Ne": "!=", "And": "&", "Or": "|", "Xor": "^"}
        if isinstance(how, str) and how in plain:
            both = f"{a} as *mut u8 {plain[how]} {b} as *mut u8" if kind[0] in ("Ptr", "Ref") else f"{a} {plain[how]} {b}"
            return both
        wrapping = {"Add": "wrapping_add", "Sub": "wrapping_sub", "Mul": "wrapping_mul"}
        named = {"WrapAdd": "wrapping_add", "WrapSub": "wrapping_sub", "WrapMul": "wrapping_mul"}
        if isinstance(how, str) and how in named:
            return f"{a}.{named[how]}({b})"
        if how == "Shl":
            return f"{a}.wrapping_shl({b} as u32)"
        if isinstance(how, dict):
            name, sign = next(iter(how.items()))
            if name in wrapping:
                return f"{a}.{wrapping[name]}({b})"
            signed = f" as i{kind[1]}" if sign == "Signed" else ""
            back = f" as u{kind[1]}" if sign == "Signed" else ""
            if name in ("Lt", "Le"):
                return f"(({a}{signed}) {'<' if name == 'Lt' else '<='} ({b}{signed}))"
            if name in ("Div", "Rem"):
                return f"(({a}{signed}).wrapping_{name.lower()}({b}{signed}){back})"
            if name == "Shr":
                return f"(({a}{signed}).wrapping_shr({b} as u32){back})"
        raise Unwritten(f"an operator {json.dumps(how)}")


def source(program):
    """The Rust of all that was written."""
    types = [text for _, text in program.types.values()]
    return "\n".join(["#![allow(warnings, clippy::all)]", *types, *program.texts.values()]) + "\n"
