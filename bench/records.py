"""A plain reading of recorded derivations, apart from the program: a record's text is read and checked line by line, and what `pure replay NAME` has to write is given. It has none of the limits on sizes, but that a run of tokens isn't too long."""
import re

KEYWORDS = "theory imports begin end class typedecl arities consts axiomatization where and definition lemma theorem apply done by prefer defer have version".split()
SPELLING = r"[A-Za-z][A-Za-z0-9_']*"
TOKEN = re.compile(
    rf"(?P<blank>[ \t\r\n]+)|(?P<qualified>{SPELLING}\.{SPELLING})|(?P<word>{SPELLING})|(?P<typevar>'{SPELLING})|(?P<schem>\?'?{SPELLING}(?:\.[0-9]{{1,9}}(?![0-9]))?)"
    r"|(?P<bound>_[0-9]{1,9}(?![0-9]))|(?P<number>[0-9]{1,9}(?![0-9]))|(?P<symbol>!!|==>|==|=>|::|\[\||\|\]|[%.,;:()\[\]{}<|+])")
NODES = "axiom assume alli alle impi impe beta refl subst ext iff".split()
LONGEST, MOST = 1000, 2_000_000
PROP = ("con", "prop", ())


class Refused(Exception):
    """What the program writes behind `no: `."""


def place(text, at):
    line = text.count("\n", 0, at) + 1
    return f"{line}:{at - (text.rfind(chr(10), 0, at) + 1) + 1}"


def comment_end(text, at):
    """The place behind the comment that begins here; comments nest."""
    depth, start = 0, at
    while at < len(text):
        if text.startswith("(*", at):
            depth, at = depth + 1, at + 2
        elif text.startswith("*)", at):
            depth, at = depth - 1, at + 2
            if depth == 0:
                return at
        else:
            at += 1
    raise Refused(f"syntax at {place(text, start)}")


def tokens(text):
    """Kinds, spellings and places; the end of the text is the last."""
    found, at = [], 0
    while at < len(text):
        if text.startswith("(*", at):
            at = comment_end(text, at)
            continue
        match = TOKEN.match(text, at)
        if not match:
            raise Refused(f"syntax at {place(text, at)}")
        if match.lastgroup != "blank":
            kind = match.lastgroup
            if kind == "word":
                kind = "keyword" if match[0] in KEYWORDS else "ident"
            found.append((kind, match[0], at))
        at = match.end()
    return [*found, ("end", "", len(text))]


def arrow(domain, range_):
    return ("con", "fun", (domain, range_))


class Reader:
    """Reads the tokens of a record."""

    def __init__(self, text):
        self.text, self.tokens, self.at = text, tokens(text), 0
        run, start = 0, 0
        for kind, said, at in self.tokens[:-1]:
            run, start = (0, start) if said == "|" else (run + 1, at if run == 0 else start)
            if run > LONGEST:
                raise Refused(f"too long at {place(text, start)}")

    def refuse(self):
        raise Refused(f"syntax at {place(self.text, self.tokens[self.at][2])}")

    def is_next(self, said):
        return self.tokens[self.at][1] == said and self.tokens[self.at][0] in ("symbol", "ident", "keyword")

    def take(self, said):
        if not self.is_next(said):
            self.refuse()
        self.at += 1

    def kind(self, *kinds):
        kind, said, _ = self.tokens[self.at]
        if kind not in kinds:
            self.refuse()
        self.at += 1
        return kind, said

    def number(self):
        return int(self.kind("number")[1])

    def schematic(self, is_typ):
        kind, said = self.tokens[self.at][:2]
        if kind != "schem" or (said[1] == "'") != is_typ:
            self.refuse()
        self.at += 1
        name, _, index = said[2 if is_typ else 1:].partition(".")
        return name, int(index or 0)

    def typ(self):
        kind, said = self.tokens[self.at][:2]
        if kind == "typevar":
            self.at += 1
            return ("free", said[1:])
        if kind == "schem":
            return ("var", *self.schematic(True))
        name, args = self.kind("ident")[1], []
        if self.is_next("("):
            self.at += 1
            args.append(self.typ())
            while self.is_next(","):
                self.at += 1
                args.append(self.typ())
            self.take(")")
        return ("con", name, tuple(args))

    def variable(self, only_schematic=False):
        self.take("{")
        if self.tokens[self.at][0] == "schem" or only_schematic:
            made = ("Var", *self.schematic(False))
        else:
            made = ("Free", self.kind("ident")[1])
        self.take(":")
        typ = self.typ()
        self.take("}")
        return (*made, typ)

    def term(self):
        if self.is_next("{"):
            return self.variable()
        if self.is_next("["):
            self.at += 1
            name = self.kind("ident")[1]
            self.take(":")
            typ = self.typ()
            self.take("]")
            return ("Const", name, typ)
        if self.tokens[self.at][0] == "bound":
            return ("Bound", int(self.kind("bound")[1][1:]))
        self.take("(")
        if self.is_next("%"):
            self.at += 1
            typ = self.typ()
            self.take(";")
            made = ("Abs", typ, self.term())
        else:
            made = ("App", self.term(), self.term())
        self.take(")")
        return made

    def item(self):
        if self.is_next("typedecl"):
            self.at += 1
            return ("typ", self.kind("ident")[1], self.number())
        if self.is_next("consts"):
            self.at += 1
            name = self.kind("ident")[1]
            self.take("::")
            return ("const", name, self.typ())
        self.take("axiomatization")
        name = self.kind("ident")[1]
        self.take(":")
        return ("axiom", name, self.term())

    def maps(self):
        typs, terms = [], []
        self.take("[")
        while not self.is_next("]"):
            variable = self.schematic(True)
            typs.append((("var", *variable), self.typ()))
            self.take(";")
        self.take("]")
        self.take("[")
        while not self.is_next("]"):
            variable = self.variable(True)
            terms.append((variable, self.term()))
            self.take(";")
        self.take("]")
        return typs, terms

    def node(self):
        if self.tokens[self.at][0] != "ident" or self.tokens[self.at][1] not in NODES:
            self.refuse()
        word = self.kind("ident")[1]
        if word == "axiom":
            return (word, self.kind("ident")[1], *self.maps())
        shape = {"assume": "t", "alli": "vn", "alle": "tn", "impi": "tn", "impe": "nn", "beta": "t", "refl": "t", "subst": "ttt", "ext": "tt", "iff": "tt"}[word]
        return (word, *({"t": self.term, "v": self.variable, "n": self.number}[it]() for it in shape))

    def record(self):
        items, lines = [], []
        self.take("begin")
        while not self.is_next("end"):
            is_item = any(self.is_next(it) for it in ("typedecl", "consts", "axiomatization"))
            if is_item and lines:
                self.refuse()
            (items if is_item else lines).append(self.item() if is_item else self.node())
            self.take("|")
        self.take("end")
        self.kind("end")
        return items, lines


def typ_instance(binds, typ):
    if typ[0] == "con":
        return ("con", typ[1], tuple(typ_instance(binds, it) for it in typ[2]))
    return binds.get(typ, typ)


def instance(typs, terms, term):
    kind = term[0]
    if kind == "Var":
        variable = ("Var", term[1], term[2], typ_instance(typs, term[3]))
        return terms.get(variable, variable)
    if kind in ("Const", "Free"):
        return (kind, term[1], typ_instance(typs, term[2]))
    if kind == "Abs":
        return ("Abs", typ_instance(typs, term[1]), instance(typs, terms, term[2]))
    if kind == "App":
        return ("App", instance(typs, terms, term[1]), instance(typs, terms, term[2]))
    return term


def put(body, argument, depth=0):
    """The body with the closed argument for the bound variable of this depth."""
    kind = body[0]
    if kind == "Bound":
        return argument if body[1] == depth else body if body[1] < depth else ("Bound", body[1] - 1)
    if kind == "Abs":
        return ("Abs", body[1], put(body[2], argument, depth + 1))
    if kind == "App":
        return ("App", put(body[1], argument, depth), put(body[2], argument, depth))
    return body


def bind(term, variable, depth=0):
    if term == variable:
        return ("Bound", depth)
    if term[0] == "Abs":
        return ("Abs", term[1], bind(term[2], variable, depth + 1))
    if term[0] == "App":
        return ("App", bind(term[1], variable, depth), bind(term[2], variable, depth))
    return term


def occurs(variable, term):
    return term == variable or term[0] == "Abs" and occurs(variable, term[2]) or term[0] == "App" and any(occurs(variable, it) for it in term[1:])


def all_of(typ, function):
    return ("App", ("Const", "all", arrow(arrow(typ, PROP), PROP)), function)


def imp(left, right):
    return ("App", ("App", ("Const", "imp", arrow(PROP, arrow(PROP, PROP))), left), right)


def eq(typ, left, right):
    return ("App", ("App", ("Const", "eq", arrow(typ, arrow(typ, PROP))), left), right)


def as_imp(term):
    return (term[1][2], term[2]) if term[0] == "App" and term[1][0] == "App" and term[1][1] == imp(PROP, PROP)[1][1] else None


def as_eq(term):
    return (term[1][2], term[2]) if term[0] == "App" and term[1][0] == "App" and term[1][1][0] == "Const" and term[1][1][1] == "eq" else None


def as_all(term):
    """The variable's type and the body, where the term quantifies over an abstraction."""
    return (term[2][1], term[2][2]) if term[0] == "App" and term[1][:2] == ("Const", "all") and term[2][0] == "Abs" and term[1] == all_of(term[2][1], None)[1] else None


def typ_size(typ):
    return 1 + sum(map(typ_size, typ[2])) if typ[0] == "con" else 1


def size(term):
    kind = term[0]
    if kind == "App":
        return 1 + size(term[1]) + size(term[2])
    if kind == "Abs":
        return 1 + typ_size(term[1]) + size(term[2])
    return 1 if kind == "Bound" else 1 + typ_size(term[-1])


class Content:
    """Pure's declarations and those of the items."""

    def __init__(self):
        any_typ = ("var", "'a", 0)
        self.typs = {"fun": 2, "prop": 0}
        self.consts = {"all": arrow(arrow(any_typ, PROP), PROP), "imp": arrow(PROP, arrow(PROP, PROP)), "eq": arrow(any_typ, arrow(any_typ, PROP)), "protect": arrow(PROP, PROP)}
        self.axioms = {}

    def certified_typ(self, typ):
        return typ[0] != "con" or self.typs.get(typ[1]) == len(typ[2]) and all(map(self.certified_typ, typ[2]))

    def matches(self, declared, typ, binds):
        if declared[0] == "var":
            return binds.setdefault(declared, typ) == typ
        return typ[0] == declared[0] and typ[1] == declared[1] and len(typ[2]) == len(declared[2]) and all(map(lambda a, b: self.matches(a, b, binds), declared[2], typ[2]))

    def typ_of(self, term, scope=()):
        """The type of a certified term, or None."""
        kind = term[0]
        if kind == "Bound":
            return scope[term[1]] if term[1] < len(scope) else None
        if kind == "App":
            function, argument = self.typ_of(term[1], scope), self.typ_of(term[2], scope)
            fits = function and argument and function[:2] == ("con", "fun") and len(function[2]) == 2 and function[2][0] == argument
            return function[2][1] if fits else None
        typ = term[1] if kind == "Abs" else term[-1]
        if not self.certified_typ(typ):
            return None
        if kind == "Abs":
            range_ = self.typ_of(term[2], (typ, *scope))
            return range_ and arrow(typ, range_)
        if kind == "Const" and (term[1] not in self.consts or not self.matches(self.consts[term[1]], typ, {})):
            return None
        return typ

    def add(self, item):
        """Whether the item makes a content."""
        kind, name, said = item
        table = {"typ": self.typs, "const": self.consts, "axiom": self.axioms}[kind]
        if name in table:
            return False
        if kind == "const" and is_fixed(said) or kind == "axiom" and (self.typ_of(said) != PROP or has_fixed(said)):
            return False
        table[name] = said
        return True


def is_fixed(typ):
    return typ[0] == "free" or typ[0] == "con" and any(map(is_fixed, typ[2]))


def has_fixed(term):
    kind = term[0]
    if kind == "App":
        return has_fixed(term[1]) or has_fixed(term[2])
    if kind == "Abs":
        return is_fixed(term[1]) or has_fixed(term[2])
    return kind == "Free" or kind != "Bound" and is_fixed(term[-1])


def concluded(content, lines, node):
    """The hypotheses and the proposition of a node, or None."""
    word, *parts = node
    typ_of = content.typ_of
    numbers = [it for it in parts if isinstance(it, int)]
    if any(it >= len(lines) for it in numbers):
        return None
    above = [lines[it] for it in numbers]
    if word == "axiom":
        name, typs, terms = parts
        if len({it for it, _ in typs}) < len(typs) or len({it for it, _ in terms}) < len(terms) or name not in content.axioms:
            return None
        if not all(content.certified_typ(it) for _, it in typs) or not all(content.certified_typ(it[3]) and typ_of(image) == it[3] for it, image in terms):
            return None
        return frozenset(), instance(dict(typs), dict(terms), content.axioms[name])
    if word == "assume":
        return (frozenset([parts[0]]), parts[0]) if typ_of(parts[0]) == PROP else None
    if word == "alli":
        hyps, prop = above[0]
        if typ_of(parts[0]) is None or any(occurs(parts[0], it) for it in hyps):
            return None
        return hyps, all_of(parts[0][-1], ("Abs", parts[0][-1], bind(prop, parts[0])))
    if word == "alle":
        hyps, prop = above[0]
        found = as_all(prop)
        return (hyps, put(found[1], parts[0])) if found and typ_of(parts[0]) == found[0] else None
    if word == "impi":
        return (above[0][0] - {parts[0]}, imp(parts[0], above[0][1])) if typ_of(parts[0]) == PROP else None
    if word == "impe":
        found = as_imp(above[0][1])
        return (above[0][0] | above[1][0], found[1]) if found and found[0] == above[1][1] else None
    if word == "beta":
        typ = typ_of(parts[0])
        return (frozenset(), eq(typ, parts[0], put(parts[0][1][2], parts[0][2]))) if typ and parts[0][0] == "App" and parts[0][1][0] == "Abs" else None
    if word == "refl":
        typ = typ_of(parts[0])
        return typ and (frozenset(), eq(typ, parts[0], parts[0]))
    if word == "subst":
        p, x, y = parts
        if p[0] != "Abs" or typ_of(p) != arrow(p[1], PROP) or typ_of(x) != p[1] or typ_of(y) != p[1]:
            return None
        return frozenset(), imp(eq(p[1], x, y), imp(put(p[2], x), put(p[2], y)))
    if word == "ext":
        f, g = parts
        typ = typ_of(f)
        if not typ or typ[:2] != ("con", "fun") or typ_of(g) != typ:
            return None
        domain, range_ = typ[2]
        return frozenset(), imp(all_of(domain, ("Abs", domain, eq(range_, ("App", f, ("Bound", 0)), ("App", g, ("Bound", 0))))), eq(typ, f, g))
    a, b = parts
    return (frozenset(), imp(imp(a, b), imp(imp(b, a), eq(PROP, a, b)))) if typ_of(a) == typ_of(b) == PROP else None


def written(term, level=0, depth=0):
    """The term as the program prints it."""
    def inside(own, text):
        return f"({text})" if own < level else text

    kind = term[0]
    found = as_all(term)
    if found:
        return inside(0, f"!!_{depth}. {written(found[1], 0, depth + 1)}")
    found = as_imp(term)
    if found:
        return inside(1, f"{written(found[0], 2, depth)} ==> {written(found[1], 1, depth)}")
    found = as_eq(term)
    if found:
        return inside(2, f"{written(found[0], 3, depth)} == {written(found[1], 3, depth)}")
    if kind == "Abs":
        return inside(3, f"%_{depth}. {written(term[2], 3, depth + 1)}")
    if kind == "App":
        return inside(4, f"{written(term[1], 4, depth)} {written(term[2], 5, depth)}")
    if kind == "Bound":
        return f"_{depth - 1 - term[1]}"
    if kind == "Var":
        return f"?{term[1]}" + (f".{term[2]}" if term[2] else "")
    return f"Pure.{term[1]}" if kind == "Const" and term[1] in ("all", "imp", "eq", "protect") else term[1]


def replayed(text):
    """The line that the program writes of a record's text."""
    try:
        items, nodes = Reader(text).record()
        content, lines, total = Content(), [], 0
        for number, item in enumerate(items):
            if not content.add(item):
                raise Refused(f"content {number}")
        for number, node in enumerate(nodes):
            made = concluded(content, lines, node)
            if not made:
                raise Refused(f"line {number}")
            total += size(made[1]) + sum(map(size, made[0]))
            if size(made[1]) > 200_000 or total > MOST:
                raise Refused(f"big {number}")
            lines.append(made)
        if not lines:
            raise Refused("empty")
        if lines[-1][0]:
            raise Refused("open")
        return f"yes: {written(lines[-1][1])}\n"
    except Refused as said:
        return f"no: {said}\n"
