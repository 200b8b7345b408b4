"""language.py: the programs of the language, their types, and the reduction of their terms, as tools/model.py reads them.

It was written from the language's description, as docs/LANGUAGE.md has it, and shares no line and no representation with
felm: terms have names in place of binder numbers, and reduction takes one step at a time from the top of the whole term
and substitutes.
"""
MOST_NESTING = 200
LARGEST = 2**63 - 1


class Fault(Exception):
    """A status other than 0: its number, the line that says it, and what stands on standard output all the same."""

    def __init__(self, status, line, out=""):
        super().__init__(line)
        self.status = status
        self.line = line
        self.out = out


# ---- Tokens ----

KEYWORDS = {"input", "main", "let", "in", "if", "then", "else", "int", "unit", "signal", "foldp", "async",
            *(f"lift{n}" for n in range(1, 10))}
KEPT = {"merge", "sampleOn", "dropRepeats", "keepIf", "output"}
SYMBOLS = ("->", "//", "==", "/=", "<=", ">=", "&&", "||", "\\", ":", ".", "=", "(", ")", "+", "-", "*", "%", "<", ">")
DIGITS = frozenset(b"0123456789")
LETTERS = frozenset(b"abcdefghijklmnopqrstuvwxyzABCDEFGHIJKLMNOPQRSTUVWXYZ_")
BLANKS = frozenset(b" \t\n\r")
ALLOWED = frozenset(range(32, 127)) | BLANKS


def read_tokens(text):
    """The tokens of a text as (kind, value, start). The kind of a word or a symbol that the grammar names is the word
    or symbol itself; the others are NAME, INT, BIG and, for words that are kept for later, KEPT."""
    tokens, at = [], 0
    while at < len(text):
        byte = text[at]
        if byte in BLANKS:
            at += 1
        elif text.startswith(b"--", at):
            while at < len(text) and text[at] != 10:
                if text[at] not in ALLOWED:
                    raise Fault(5, f"no token at byte {at}")
                at += 1
        elif byte in LETTERS or byte in DIGITS:
            members = DIGITS if byte in DIGITS else LETTERS | DIGITS
            end = at
            while end < len(text) and text[end] in members:
                end += 1
            tokens.append((*word_or_number(text[at:end].decode(), at), at))
            at = end
        else:
            symbol = next((mark for mark in SYMBOLS if text.startswith(mark.encode(), at)), None)
            if symbol is None:
                raise Fault(5, f"no token at byte {at}")
            tokens.append((symbol, None, at))
            at += len(symbol)
    return tokens


def word_or_number(spelling, at):
    if not spelling[0].isdigit():
        if spelling in KEYWORDS:
            return spelling, None
        return ("KEPT", None) if spelling in KEPT else ("NAME", spelling)
    digits = spelling.lstrip("0") or "0"
    if len(digits) > 19 or int(digits) > LARGEST + 1:
        raise Fault(5, f"number too wide at byte {at}")
    return ("INT" if int(digits) <= LARGEST else "BIG"), int(digits)


# ---- Programs ----

class Expr:
    """An expression as it is written: its form, its parts, and the byte that is its place."""

    def __init__(self, place, form, *parts):
        self.place = place
        self.form = form
        self.parts = parts


class Reader:
    """Reads tokens as a program, from the left and with one token in view, so that it stops at the first token that
    can't follow those before it. `depth` is the nesting of the tokens that a phrase begins with."""

    COMPARISONS = ("==", "/=", "<", "<=", ">", ">=")

    def __init__(self, text, tokens):
        self.tokens = [*tokens, ("END", None, len(text))]
        self.next = 0

    def kind(self):
        return self.tokens[self.next][0]

    def place(self):
        return self.tokens[self.next][2]

    def refuse(self):
        raise Fault(5, f"syntax error at byte {self.place()}")

    def take(self, kind, depth):
        """The value of the token in view, which has to be of this kind."""
        if self.kind() != kind:
            self.refuse()
        if depth > MOST_NESTING:
            raise Fault(5, f"nested too deeply at byte {self.place()}")
        self.next += 1
        return self.tokens[self.next - 1][1]

    def program(self):
        """The inputs as (name, type, default) in order, and the expression of main."""
        inputs = []
        while self.kind() == "input":
            self.take("input", 0)
            place = self.place()
            name = self.take("NAME", 0)
            if any(name == other for other, _, _ in inputs):
                raise Fault(5, f"input declared twice at byte {place}")
            self.take(":", 0)
            inputs.append((name, *self.declared()))
        self.take("main", 0)
        self.take("=", 0)
        main = self.expr(1)
        if self.kind() != "END":
            self.refuse()
        return inputs, main

    def declared(self):
        if self.kind() == "unit":
            for kind in ("unit", "=", "(", ")"):
                self.take(kind, 0)
            return "unit", UNIT
        self.take("int", 0)
        self.take("=", 0)
        if self.kind() == "-":
            return "int", number(self.negative(0))
        return "int", number(self.take("INT", 0))

    def negative(self, depth):
        self.take("-", depth)
        return -self.take("BIG" if self.kind() == "BIG" else "INT", depth)

    def expr(self, depth):
        place = self.place()
        if self.kind() == "\\":
            self.take("\\", depth)
            name = self.take("NAME", depth)
            self.take(":", depth)
            param_place, param = self.place(), self.type(depth + 1)
            self.take(".", depth)
            return Expr(place, "lam", name, param, param_place, self.expr(depth + 1))
        if self.kind() == "let":
            self.take("let", depth)
            name = self.take("NAME", depth)
            self.take("=", depth)
            bound = self.expr(depth + 1)
            self.take("in", depth)
            return Expr(place, "let", name, bound, self.expr(depth + 1))
        if self.kind() == "if":
            parts = []
            for word in ("if", "then", "else"):
                self.take(word, depth)
                parts.append(self.expr(depth + 1))
            return Expr(place, "if", *parts)
        return self.chain(depth, ("||",), self.conjunction)

    def chain(self, depth, operators, operand):
        """Operands between operators of one level, grouped to the left; each operator nests what follows it deeper."""
        left = operand(depth)
        while self.kind() in operators:
            place, op = self.place(), self.kind()
            self.take(op, depth)
            depth += 1
            left = Expr(place, "bin", op, left, operand(depth))
        return left

    def conjunction(self, depth):
        return self.chain(depth, ("&&",), self.comparison)

    def comparison(self, depth):
        left = self.sum(depth)
        if self.kind() not in self.COMPARISONS:
            return left
        place, op = self.place(), self.kind()
        self.take(op, depth)
        return Expr(place, "bin", op, left, self.sum(depth))

    def sum(self, depth):
        return self.chain(depth, ("+", "-"), self.product)

    def product(self, depth):
        return self.chain(depth, ("*", "//", "%"), self.operand)

    def operand(self, depth):
        place, kind = self.place(), self.kind()
        if kind == "-":
            return Expr(place, "int", self.negative(depth))
        if kind in ("foldp", "async") or kind.startswith("lift"):
            self.take(kind, depth)
            count = {"foldp": 3, "async": 1}.get(kind) or 1 + int(kind[4:])
            return Expr(place, kind.rstrip("123456789"), *(self.atom(depth) for _ in range(count)))
        left = self.atom(depth)
        while self.kind() in ("NAME", "INT", "("):
            place = self.place()
            left = Expr(place, "app", left, self.atom(depth))
            depth += 1
        return left

    def atom(self, depth):
        place = self.place()
        if self.kind() == "NAME":
            return Expr(place, "name", self.take("NAME", depth))
        if self.kind() == "INT":
            return Expr(place, "int", self.take("INT", depth))
        self.take("(", depth)
        if self.kind() == ")":
            self.take(")", depth)
            return Expr(place, "unit")
        inner = self.expr(depth + 1)
        self.take(")", depth)
        return inner

    def type(self, depth):
        left = self.applied_type(depth)
        if self.kind() != "->":
            return left
        self.take("->", depth)
        return "->", left, self.type(depth + 1)

    def applied_type(self, depth):
        if self.kind() != "signal":
            return self.atomic_type(depth)
        self.take("signal", depth)
        return "signal", self.atomic_type(depth)

    def atomic_type(self, depth):
        if self.kind() in ("int", "unit"):
            kind = self.kind()
            self.take(kind, depth)
            return kind
        self.take("(", depth)
        inner = self.type(depth + 1)
        self.take(")", depth)
        return inner


# ---- Types ----
# A type is "unit", "int", ("->", FROM, TO) or ("signal", T).

def is_simple(ty):
    return ty in ("unit", "int") or ty[0] == "->" and is_simple(ty[1]) and is_simple(ty[2])


def is_signal(ty):
    if ty[0] == "signal":
        return is_simple(ty[1])
    return ty[0] == "->" and (is_simple(ty[1]) or is_signal(ty[1])) and is_signal(ty[2])


def is_well_formed(ty):
    return is_simple(ty) or is_signal(ty)


def check(expr, scope):
    """The type of an expression and its core term; `scope` gives each name its type and its term."""
    form, parts = expr.form, expr.parts
    if form == "unit":
        return "unit", UNIT
    if form == "int":
        return "int", number(parts[0])
    if form == "name":
        if parts[0] not in scope:
            raise Fault(6, f"unknown name at byte {expr.place}")
        return scope[parts[0]]
    if form == "lam":
        name, param, param_place, body = parts
        if not is_well_formed(param):
            raise Fault(6, f"ill-formed type at byte {param_place}")
        result, body = check(body, {**scope, name: (param, Term("var", name))})
        ty, term = ("->", param, result), Term("lam", name, param, body)
        return judged(expr, ty if is_well_formed(ty) else None, term)
    if form == "let":
        name, bound, body = parts
        bound_type, bound = check(bound, scope)
        ty, body = check(body, {**scope, name: (bound_type, Term("var", name))})
        keeps_layer = is_signal(ty) or not is_signal(bound_type)
        return judged(expr, ty if keeps_layer else None, Term("let", name, bound, body))
    if form == "bin":
        checked = [check(part, scope) for part in parts[1:]]
        types, terms = zip(*checked)
        return judged(expr, "int" if types == ("int", "int") else None, Term("bin", parts[0], *terms))
    checked = [check(part, scope) for part in parts]
    types, terms = zip(*checked)
    return judged(expr, {"app": of_application, "if": of_condition, "lift": of_lift, "foldp": of_foldp,
                         "async": of_async}[form](*types), Term(form, *terms))


def judged(expr, ty, term):
    if ty is None:
        raise Fault(6, f"no type at byte {expr.place}")
    return ty, term


def of_application(function, argument):
    return function[2] if function[0] == "->" and function[1] == argument else None


def of_condition(condition, yes, no):
    return yes if condition == "int" and yes == no else None


def of_lift(function, *signals):
    for signal in signals:
        if function[0] != "->" or signal != ("signal", function[1]):
            return None
        function = function[2]
    return ("signal", function) if is_simple(function) else None


def of_foldp(function, base, signal):
    folds = signal[0] == "signal" and function == ("->", signal[1], ("->", base, base)) and is_simple(function)
    return ("signal", base) if folds else None


def of_async(signal):
    return signal if signal[0] == "signal" else None


def check_program(inputs, main):
    """The core term of a program whose main is a signal of a simple type."""
    scope = {name: (("signal", ty), Term("input", place)) for place, (name, ty, _) in enumerate(inputs)}
    ty, term = check(main, scope)
    if ty[0] != "signal":
        raise Fault(6, f"main is no signal at byte {main.place}")
    return term


def read_program(text):
    """The inputs of a program text as (name, type, default), and its core term."""
    inputs, main = Reader(text, read_tokens(text)).program()
    return inputs, check_program(inputs, main)


# ---- Terms and their reduction ----

NONE = frozenset()


class Term:
    """A core term: its form, its parts, the names that are free in it, and whether it is a value, a signal term or
    neither, and so still to be reduced.

    unit, int N, var NAME, lam NAME TYPE BODY, app F A, bin OP L R, if C A B, let NAME A B, input I, node K,
    lift F A.., foldp F B A, async A
    """
    __slots__ = ("form", "parts", "free", "kind")

    def __init__(self, form, *parts):
        self.form = form
        self.parts = parts
        if form == "var":
            self.free = frozenset(parts)
        elif form == "lam":
            self.free = parts[2].free - {parts[0]}
        elif form == "let":
            self.free = parts[1].free | parts[2].free - {parts[0]}
        else:
            free = NONE
            for part in parts:
                if isinstance(part, Term) and part.free:
                    free = free | part.free
            self.free = free
        self.kind = self.find_kind()

    def find_kind(self):
        if self.form in ("unit", "int", "lam"):
            return "value"
        if self.form in ("input", "node"):
            return "signal"
        values = {"lift": 1, "foldp": 2, "async": 0}.get(self.form)
        if values is None:
            return None
        kinds = [part.kind for part in self.parts]
        return "signal" if kinds == ["value"] * values + ["signal"] * (len(kinds) - values) else None


UNIT = Term("unit")


def number(value):
    """The number modulo 2^64 as a signed one of 64 bits."""
    return Term("int", (value + 2**63) % 2**64 - 2**63)


def quotient(left, right):
    if right == 0:
        return 0
    size = abs(left) // abs(right)
    return size if (left < 0) == (right < 0) else -size


OPERATORS = {
    "+": lambda a, b: a + b,
    "-": lambda a, b: a - b,
    "*": lambda a, b: a * b,
    "//": quotient,
    "%": lambda a, b: a - quotient(a, b) * b if b else 0,
    "==": lambda a, b: int(a == b),
    "/=": lambda a, b: int(a != b),
    "<": lambda a, b: int(a < b),
    "<=": lambda a, b: int(a <= b),
    ">": lambda a, b: int(a > b),
    ">=": lambda a, b: int(a >= b),
    "&&": lambda a, b: int(a != 0 and b != 0),
    "||": lambda a, b: int(a != 0 or b != 0),
}


def substitute(term, name, value):
    """The term with a closed term in the place of a free name. Nothing can be captured, since it is closed."""
    if name not in term.free:
        return term
    if term.form == "var":
        return value
    if term.form == "let" and term.parts[0] == name:
        return Term("let", name, substitute(term.parts[1], name, value), term.parts[2])
    return Term(term.form, *(substitute(part, name, value) if isinstance(part, Term) else part for part in term.parts))


def step(term, shared):
    """The term after the one step that it can take; a signal that is shared is added to the list."""
    form, parts = term.form, term.parts
    if form == "app":
        function, argument = parts
        if function.form == "lam":
            return Term("let", function.parts[0], argument, function.parts[2])
        return Term("app", step(function, shared), argument)
    if form == "bin":
        op, left, right = parts
        if left.kind is None:
            return Term("bin", op, step(left, shared), right)
        if right.kind is None:
            return Term("bin", op, left, step(right, shared))
        return number(OPERATORS[op](left.parts[0], right.parts[0]))
    if form == "if":
        condition, yes, no = parts
        if condition.kind is None:
            return Term("if", step(condition, shared), yes, no)
        return yes if condition.parts[0] != 0 else no
    if form == "let":
        name, bound, body = parts
        if bound.kind is None:
            return Term("let", name, step(bound, shared), body)
        if bound.kind == "value":
            return substitute(body, name, bound)
        shared.append(bound)
        return substitute(body, name, Term("node", len(shared) - 1))
    # A lift, a foldp or an async: its parts from the left.
    place = next(place for place, part in enumerate(parts) if part.kind is None)
    return Term(form, *parts[:place], step(parts[place], shared), *parts[place + 1:])


def reduce(term, budget):
    """What a term comes to within so many steps: the list of shared signals, the end and the number of steps; or None
    where it takes more."""
    shared, steps = [], 0
    while term.kind is None:
        if steps == budget:
            return None
        term = step(term, shared)
        steps += 1
    return shared, term, steps


def call(function, arguments, budget):
    """The value of a function of these values, or None where it takes more steps than the budget."""
    for argument in arguments:
        function = Term("app", function, argument)
    reduced = reduce(function, budget)
    return reduced and reduced[1]


# ---- Texts ----

def type_text(ty):
    if ty in ("unit", "int"):
        return ty
    if ty[0] == "signal":
        return f"signal {type_text(ty[1])}" if ty[1] in ("unit", "int") else f"signal ({type_text(ty[1])})"
    return f"({type_text(ty[1])}) -> {type_text(ty[2])}" if ty[1][0] == "->" else f"{type_text(ty[1])} -> {type_text(ty[2])}"


def term_text(term, names=None, depth=0):
    """A term's text. `names` gives each name in scope its binder's number, `depth` is how many binders enclose it."""
    names = names or {}

    def text(part):
        return term_text(part, names, depth)

    def under(name, body):
        return term_text(body, {**names, name: depth}, depth + 1)

    form, parts = term.form, term.parts
    if form == "unit":
        return "()"
    if form == "int":
        return str(parts[0]) if parts[0] >= 0 else f"({parts[0]})"
    if form == "var":
        return f"v{names[parts[0]]}"
    if form == "lam":
        return f"(\\v{depth}:{type_text(parts[1])}. {under(parts[0], parts[2])})"
    if form == "app":
        return f"({text(parts[0])} {text(parts[1])})"
    if form == "bin":
        return f"({text(parts[1])} {parts[0]} {text(parts[2])})"
    if form == "if":
        return f"(if {text(parts[0])} then {text(parts[1])} else {text(parts[2])})"
    if form == "let":
        return f"(let v{depth} = {text(parts[1])} in {under(parts[0], parts[2])})"
    if form in ("input", "node"):
        return f"{'#' if form == 'input' else '$'}{parts[0]}"
    keyword = f"lift{len(parts) - 1}" if form == "lift" else form
    return f"({' '.join([keyword, *map(text, parts)])})"
