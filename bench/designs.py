"""Random designs of the language, as trees that can be printed and made smaller.

An expression is a list: ["lit", TEXT], ["dec", NUMBER], ["name", NAME], ["bit", NAME, INDEX], ["part", NAME, HIGH, LOW],
["un", MARK, E], ["bin", MARK, E, E], ["cond", E, E, E], ["join", E..], ["rep", COUNT, E..], ["cast", WORD, E]. A target is a
name, a bit, a part or a join of such. A statement is ["set", TARGET, MARK, E], ["if", E, S, S or None], ["case", WORD, E, ARM..]
with ["arm", LABELS or None, S], ["block", S..] or ["empty"]. An item is ["assign", TARGET, E], ["wire", SIGNAL, E],
["always", EVENTS, S] or ["copy", MODULE, NAME, OVERRIDES, LINKS].
"""
LEVELS = {"*": 10, "/": 10, "%": 10, "+": 9, "-": 9, "<<": 8, ">>": 8, "<<<": 8, ">>>": 8, "<": 7, "<=": 7, ">": 7, ">=": 7,
          "==": 6, "!=": 6, "&": 5, "^": 4, "~^": 4, "^~": 4, "|": 3, "&&": 2, "||": 1}
EXPRESSIONS = {"lit", "dec", "name", "bit", "part", "un", "bin", "cond", "join", "rep", "cast"}
STATEMENTS = {"set", "if", "case", "block", "empty"}


# ---- text ---------------------------------------------------------------------------------------------------------
def level(e):
    return LEVELS[e[1]] if e[0] == "bin" else {"cond": 0, "un": 11}.get(e[0], 12)


def shown(e, least=0, sized=False):
    """The text of an expression that stands where an operator of a level binds. A plain decimal is given a size where asked."""
    kind = e[0]
    if kind == "lit" or kind == "name":
        text = e[1]
    elif kind == "dec":
        text = f"32'sd{e[1]}" if sized else str(e[1])
    elif kind == "bit":
        text = f"{e[1]}[{shown(e[2], 0, sized)}]"
    elif kind == "part":
        text = f"{e[1]}[{e[2]}:{e[3]}]"
    elif kind == "un":
        text = f"{e[1]}{shown(e[2], 12, sized)}"
    elif kind == "bin":
        at = LEVELS[e[1]]
        right = amount(e[3]) if sized and at == 8 else shown(e[3], at + 1, sized)
        text = f"{shown(e[2], at, sized)} {e[1]} {right}"
    elif kind == "cond":
        text = f"{shown(e[1], 1, sized)} ? {shown(e[2], 0, sized)} : {shown(e[3], 0, sized)}"
    elif kind == "join":
        text = "{" + ", ".join(shown(one, 0, sized) for one in e[1:]) + "}"
    elif kind == "rep":
        text = "{" + str(e[1]) + "{" + ", ".join(shown(one, 0, sized) for one in e[2:]) + "}}"
    else:
        text = f"{e[1]}({shown(e[2], 0, sized)})"
    return text if level(e) >= least else f"({text})"


def amount(e):
    """The simulator's text of a shift's amount: it widens some that come down to a signed name by their sign, and so gets a join."""
    return "{" + shown(e, 0, True) + "}"


def selector_text(e, sized):
    """The text of a selector. The simulator compares one that is or comes down to a signed name at the width that the labels'
    numbers need, and not at theirs; so it is told an operator that changes nothing."""
    return f"{shown(e, 5, True)} ^ still" if sized else shown(e)


def told(s, sized, pad):
    """The lines of a statement."""
    kind = s[0]
    if kind == "empty":
        return [pad + ";"]
    if kind == "set":
        return [f"{pad}{shown(s[1], 0, sized)} {s[2]} {shown(s[3], 0, sized)};"]
    if kind == "block":
        return [pad + "begin"] + [line for one in s[1:] for line in told(one, sized, pad + "  ")] + [pad + "end"]
    if kind == "if":
        lines = [f"{pad}if ({shown(s[1], 0, sized)})"] + told(["block", s[2]], sized, pad + "  ")
        return lines + ([pad + "else"] + told(s[3], sized, pad + "  ") if s[3] else [])
    lines = [f"{pad}{s[1]} ({selector_text(s[2], sized)})"]
    for arm in s[3:]:
        head = "default" if arm[1] is None else ", ".join(shown(one, 0, sized) for one in arm[1])
        lines += [f"{pad}  {head}:"] + told(arm[2], sized, pad + "    ")
    return lines + [pad + "endcase"]


def declared(signal, word):
    sign = " signed" if signal["signed"] else ""
    low, width = signal["low"], signal["width"]
    bounds = f" [{low + width - 1}:{low}]" if signal["ranged"] else ""
    return f"{word}{sign}{bounds} {signal['name']}"


def names_read(node):
    """The names that a statement or an expression reads."""
    if not isinstance(node, list) or not node:
        return set()
    own = {node[1]} if node[0] in ("name", "bit", "part") else set()
    return own.union(*[names_read(one) for one in (node[3:] if node[0] == "set" else node)])


def all_events(module, item):
    """A list of events for `*`: what a block reads and doesn't set, and an input, so that it runs at least once."""
    names = {s["name"] for s in module["ports"] + module["inner"] if s["kind"] != "clock"}
    names |= {other[1]["name"] for other in module["items"] if other[0] == "wire"}
    names = (names & names_read(item[2])) | {next(s["name"] for s in module["ports"] if s["kind"] == "in")}
    return f"({' or '.join(sorted(names - targets(item[2])))})"


def item_lines(item, sized, events=None):
    kind = item[0]
    if kind == "assign":
        return [f"  assign {shown(item[1], 0, sized)} = {shown(item[2], 0, sized)};"]
    if kind == "wire":
        return [f"  {declared(item[1], 'wire')} = {shown(item[2], 0, sized)};"]
    if kind == "always":
        return [f"  always @{item[1] if events is None else events}"] + told(item[2], sized, "    ")
    over = f" #({', '.join(f'.{name}({shown(e, 0, sized)})' for name, e in item[3])})" if item[3] else ""
    return [f"  {item[1]}{over} {item[2]}({', '.join(f'.{port}({shown(e, 0, sized)})' for port, e in item[4])});"]


def module_text(module, sized):
    ports = [declared(s, {"clock": "input", "reset": "input", "in": "input", "out": "output", "outreg": "output reg"}[s["kind"]])
             for s in module["ports"]]
    lines = [f"module {module['name']}({', '.join(ports)});"]
    if sized:
        lines.append("  reg signed [0:0] still = 0;")
    for word, sign, bounds, name, e in module["params"]:
        lines.append(f"  {word}{sign}{bounds} {name} = {shown(e, 0, sized)};")
    lines += [f"  {declared(s, s['kind'])};" for s in module["inner"]]
    for item in module["items"]:
        lines += item_lines(item, sized, all_events(module, item) if sized and item[0] == "always" and item[1] == "*" else None)
    return lines + ["endmodule"]


def text_of(design, sized=False):
    """The text of a design, the top last. For the simulator decimals have a size, and blocks wait for an input besides."""
    return "\n".join(line for module in design["modules"] for line in module_text(module, sized)) + "\n"


# ---- what a design has --------------------------------------------------------------------------------------------
def targets(s):
    """The names that a statement sets."""
    if s is None or s[0] == "empty":
        return set()
    if s[0] == "set":
        return names_of_target(s[1])
    if s[0] == "if":
        return targets(s[2]) | targets(s[3])
    if s[0] == "case":
        return set().union(*[targets(arm[2]) for arm in s[3:]])
    return set().union(set(), *[targets(one) for one in s[1:]])


def names_of_target(t):
    return set().union(*[names_of_target(one) for one in t[1:]]) if t[0] == "join" else {t[1]}


def module_named(design, name):
    return next(m for m in design["modules"] if m["name"] == name)


def registers(design, module=None, path=""):
    """Paths and widths of the registers, in flat order."""
    module = module or design["modules"][-1]
    edged = set().union(set(), *[targets(i[2]) for i in module["items"] if i[0] == "always" and "edge" in i[1]])
    found = [(path + s["name"], s["width"]) for s in module["ports"] + module["inner"] if s["name"] in edged]
    for item in module["items"]:
        if item[0] == "copy":
            found += registers(design, module_named(design, item[1]), f"{path}{item[2]}.")
    return found


def inputs(design):
    return [(s["name"], s["width"], s["kind"]) for s in design["modules"][-1]["ports"] if s["kind"] in ("in", "reset")]


def outputs(design):
    return [(s["name"], s["width"]) for s in design["modules"][-1]["ports"] if s["kind"] in ("out", "outreg")]


def clock(design):
    return next((s["name"] for s in design["modules"][-1]["ports"] if s["kind"] == "clock"), None)


# ---- making -------------------------------------------------------------------------------------------------------
class Maker:
    """Expressions and statements over the signals that may be read, no wider than a cap where that can be chosen."""

    def __init__(self, rng, cap):
        self.rng, self.cap, self.readable, self.params = rng, cap, [], []

    def chance(self, p):
        return self.rng.random() < p

    def width(self):
        r = self.rng
        return r.choice([1, 1, 2, 3, 4, 5, 7, 8, r.randrange(1, self.cap + 1), r.randrange(1, self.cap + 1), self.cap])

    def literal(self, width=None, signed=None):
        r = self.rng
        width = width or min(self.width(), 64)
        value = r.choice([0, 1, 2 ** width - 1, 2 ** (width - 1), r.randrange(2 ** width), r.randrange(2 ** width)])
        base, digits = r.choice([("b", f"{value:b}"), ("o", f"{value:o}"), ("h", f"{value:x}"), ("d", str(value))])
        signed = self.chance(0.3) if signed is None else signed
        return ["lit", f"{width}'{'s' if signed else ''}{base}{digits}"], width, signed

    def decimal(self):
        return ["dec", self.rng.choice([0, 1, 2, 3, 4, 7, 8, 15, 31, 255, self.rng.randrange(2 ** 31)])], 32, True

    def divisor(self):
        while True:
            e, width, signed = self.literal()
            if any(c in "123456789abcdef" for c in e[1].split("'")[1].lstrip("s")[1:]):
                return e, width, signed

    def constant(self, depth=1):
        """A constant expression."""
        held = self.readable
        self.readable = []
        made = self.expression(depth)
        self.readable = held
        return made

    def index(self, k, depth):
        """An unsigned expression of k bits."""
        r = self.rng
        exact = [s for s in self.readable if s["width"] == k and not s["signed"]]
        if exact and self.chance(0.5):
            return ["name", r.choice(exact)["name"]]
        wide = [s for s in self.readable if s["width"] > k and s["ranged"]]
        if wide and self.chance(0.7):
            s = r.choice(wide)
            low = s["low"] + r.randrange(s["width"] - k + 1)
            return ["part", s["name"], low + k - 1, low] if k > 1 or self.chance(0.3) else ["bit", s["name"], ["dec", low]]
        if k == 1:
            return ["un", r.choice(["&", "|", "^", "!"]), self.expression(max(depth - 1, 0))[0]]
        cut = r.randrange(1, k)
        return ["join", self.index(cut, depth), self.index(k - cut, depth)]

    def word(self, width, depth):
        """An expression of just this own width."""
        if self.chance(0.3):
            made = self.expression(depth)
            if made[1] == width and "'name'" in str(made[0]):
                return made[0]
        if self.chance(0.4):
            e = ["bin", self.rng.choice(["+", "-", "^", "&", "|"]), self.index(width, depth), self.index(width, depth)]
            return e
        return self.index(width, depth)

    def read(self, depth):
        r, s = self.rng, self.rng.choice(self.readable)
        name, width, low = s["name"], s["width"], s["low"]
        if not s["ranged"] or self.chance(0.55):
            return ["name", name], width, s["signed"]
        if self.chance(0.5):
            at = r.randrange(width)
            span = r.randrange(1, width - at + 1)
            return self.whole(s, ["part", name, low + at + span - 1, low + at], span), span, False
        most = width.bit_length() - 1
        if low == 0 and most >= 1 and self.chance(0.6):
            return ["bit", name, self.index(r.randrange(1, most + 1), depth)], 1, False
        return self.whole(s, ["bit", name, ["dec", low + r.randrange(width)]], 1), 1, False

    def whole(self, s, select, span):
        """A select of all bits of a signed vector stands in a join, as the simulator reads it as signed where it is an amount."""
        return ["join", select] if s["signed"] and span == s["width"] else select

    def leaf(self, depth):
        at = self.rng.random()
        if at < 0.65 and self.readable:
            return self.read(depth)
        if at < 0.75 and self.params:
            return self.rng.choice(self.params)
        return self.decimal() if at > 0.93 else self.literal()

    def expression(self, depth):
        """An expression, its own width and sign."""
        r = self.rng
        if depth <= 0 or self.chance(0.12):
            return self.leaf(depth)
        at = r.random()
        one, width, signed = self.expression(depth - 1)
        if at < 0.14:
            mark = r.choice(["+", "-", "-", "~", "~", "!", "&", "~&", "|", "~|", "^", "~^", "^~"])
            return ["un", mark, one], width if mark in "+-~" else 1, signed and mark in "+-~"
        if at < 0.48:
            mark = r.choice(["+", "+", "-", "-", "&", "|", "^", "~^", "^~", "*", "/", "%"])
            if mark == "*" and self.cap > 24 and self.chance(0.7):
                mark = "+"
            if mark in "/%":
                one, width, signed = self.constant() if self.chance(0.2) else self.literal()
                two, wide, also = self.divisor()
            else:
                two, wide, also = self.expression(depth - 1)
            return ["bin", mark, one, two], max(width, wide), signed and also
        if at < 0.58:
            mark = r.choice(["<<", ">>", "<<<", ">>>", ">>>"])
            two = ["dec", r.randrange(12)] if self.chance(0.3) else self.expression(depth - 1)[0]
            return ["bin", mark, one, two], width, signed
        if at < 0.70:
            mark = r.choice(["<", "<=", ">", ">=", "==", "!="])
            return ["bin", mark, one, self.expression(depth - 1)[0]], 1, False
        if at < 0.76:
            return ["bin", r.choice(["&&", "||"]), one, self.expression(depth - 1)[0]], 1, False
        if at < 0.85:
            two, wide, also = self.expression(depth - 1)
            return ["cond", self.expression(depth - 1)[0], one, two], max(width, wide), signed and also
        if at < 0.91:
            parts, sum_of = [one], width
            for _ in range(r.randrange(3)):
                two, wide, _ = self.expression(depth - 1)
                if sum_of + wide <= 64:
                    parts.append(two)
                    sum_of += wide
            return ["join"] + parts, sum_of, False
        if at < 0.94:
            count = r.randrange(1, max(2, min(5, 64 // width + 1)))
            if count * width <= 64:
                return ["rep", count, one], count * width, False
        word = r.choice(["$signed", "$signed", "$unsigned"])
        return ["cast", word, one], width, word == "$signed"

    # -- statements
    def target(self, signals):
        """A target of parts of these signals, and its width."""
        r = self.rng
        if self.chance(0.3):
            parts = [self.target_part(r.choice(signals)) for _ in range(r.randrange(2, 4))]
            bits = [bit for one, _ in parts for bit in bits_of(one, signals)]
            if len(bits) <= 64 and len(bits) == len(set(bits)):
                return ["join"] + [one for one, _ in parts], len(bits)
        return self.target_part(r.choice(signals))

    def target_part(self, s):
        r, name, width, low = self.rng, s["name"], s["width"], s["low"]
        if not s["ranged"] or self.chance(0.5):
            return ["name", name], width
        at = r.randrange(width)
        if self.chance(0.5):
            return ["bit", name, ["dec", low + at]], 1
        span = r.randrange(1, width - at + 1)
        return ["part", name, low + at + span - 1, low + at], span

    def label(self, word, sized):
        r = self.rng
        if word == "casez" and self.chance(0.5):
            width = min(sized, 64)
            digits = "".join(r.choice("01?z") for _ in range(r.randrange(1, min(width, 6) + 1)))
            if digits.strip("01"):
                sign = "" if digits[0] in "?z" else r.choice(["", "", "s"])
                return ["lit", f"{width}'{sign}b{digits}"]
        if self.chance(0.15):
            return self.expression(1)[0]
        if self.chance(0.7):
            return ["lit", f"{min(sized, 64)}'{r.choice(['', '', 's'])}d{r.randrange(min(2 ** sized, 6))}"]
        return self.literal()[0] if self.chance(0.7) else self.decimal()[0]

    def statement(self, signals, mark, depth):
        r, at = self.rng, self.rng.random()
        if depth <= 0 or at < 0.35:
            return ["set", self.target(signals)[0], mark, self.expression(r.randrange(1, 4))[0]]
        if at < 0.5:
            return ["block"] + [self.statement(signals, mark, depth - 1) for _ in range(r.randrange(1, 4))]
        if at < 0.75:
            other = self.statement(signals, mark, depth - 1) if self.chance(0.6) else None
            return ["if", self.expression(2)[0], self.statement(signals, mark, depth - 1), other]
        word = r.choice(["case", "case", "casez"])
        selector, width, _ = self.expression(r.randrange(1, 3))
        arms = [["arm", [self.label(word, width) for _ in range(r.choice([1, 1, 2]))], self.statement(signals, mark, depth - 1)]
                for _ in range(r.randrange(1, 5))]
        if self.chance(0.5):
            arms.insert(r.randrange(len(arms) + 1), ["arm", None, self.statement(signals, mark, depth - 1)])
        return ["case", word, selector] + arms

    def covering(self, signals, mark, depth):
        """A statement that sets all bits of these signals on every way."""
        r, at = self.rng, self.rng.random()
        if depth <= 0 or at < 0.3:
            return ["block"] + [["set", ["name", s["name"]], mark, self.expression(r.randrange(0, 3))[0]] for s in signals]
        if at < 0.65:
            return ["if", self.expression(2)[0], self.covering(signals, mark, depth - 1), self.covering(signals, mark, depth - 1)]
        k = r.randrange(1, 3)
        full = self.readable and self.chance(0.5)
        selector = self.index(k, 1) if full else self.expression(1)[0]
        arms = [["arm", [["lit", f"{k}'d{v}"]], self.covering(signals, mark, depth - 1)] for v in range(2 ** k)]
        if not full:
            arms.insert(r.randrange(len(arms)), ["arm", None, self.covering(signals, mark, depth - 1)])
        return ["case", "case", selector] + arms


def bits_of(part, signals):
    """The bits of a part of a target. No target of ours names one twice, as simulators differ in which value it then has."""
    if part[0] == "name":
        s = next(s for s in signals if s["name"] == part[1])
        return [(part[1], s["low"] + i) for i in range(s["width"])]
    return [(part[1], part[2][1])] if part[0] == "bit" else [(part[1], i) for i in range(part[3], part[2] + 1)]


def signal(rng, name, kind, width, plain=False):
    ranged = width > 1 or (not plain and rng.random() < 0.2)
    low = 0 if plain or not ranged or rng.random() < 0.8 else rng.randrange(1, 9)
    return {"name": name, "kind": kind, "width": width, "low": low, "signed": not plain and rng.random() < 0.35, "ranged": ranged}


def constants(make, module):
    """Some parameters of a module."""
    rng = make.rng
    for i in range(rng.randrange(3)):
        e, width, signed = make.constant(rng.randrange(2))
        word, sign, bounds = rng.choice(["parameter", "localparam"]), "", ""
        if rng.random() < 0.5:
            width, signed = make.width(), False
            bounds = f" [{width - 1}:0]"
            if rng.random() < 0.4:
                sign, signed = " signed", True
        module["params"].append([word, sign, bounds, f"P{i}", e])
        make.params.append((["name", f"P{i}"], width, signed))


def module(rng, name, cap, clocked, resets, parts, child=None):
    """A random module: its ports, parameters, inner signals and items."""
    make = Maker(rng, cap)
    made = {"name": name, "ports": [], "params": [], "inner": [], "items": []}
    constants(make, made)
    if clocked:
        made["ports"].append(signal(rng, "clk", "clock", 1, True))
    made["ports"] += [signal(rng, f"r{i}", "reset", 1, True) for i in range(resets)]
    made["ports"] += [signal(rng, f"a{i}", "in", min(make.width(), 64)) for i in range(rng.randrange(1, 4))]
    make.readable = [s for s in made["ports"] if s["kind"] != "clock" and (s["kind"] != "reset" or rng.random() < 0.3)]
    todo, held = [], []
    for i in range(rng.randrange(*parts)):
        kind = rng.choice(["wire", "wire", "block", "held", "held"] if clocked else ["wire", "block"])
        out = rng.random() < 0.5 or i == 0
        s = signal(rng, dict(wire="w", block="c", held="q")[kind] + str(i), "", min(make.width(), 64))
        s["kind"] = ("out" if out else "wire") if kind == "wire" else ("outreg" if out else "reg")
        made["ports" if out else "inner"].append(s)
        (held if kind == "held" else todo).append((kind, s))
    make.readable += [s for _, s in held]
    items = []
    if child is not None:
        items.append(copy(rng, make, made, child, resets))
    rng.shuffle(todo)
    while todo:
        kind, s = todo.pop()
        group = [s]
        if kind == "block":
            while todo and todo[-1][0] == "block" and rng.random() < 0.5:
                group.append(todo.pop()[1])
            items.append(block(make, group))
        else:
            items += wire(make, made, s)
        make.readable += group
    while held:
        group = [held.pop()[1]]
        while held and rng.random() < 0.4:
            group.append(held.pop()[1])
        items.append(clocked_block(make, group, resets))
    first = [item for item in items if item[0] == "wire"]
    rest = [item for item in items if item[0] != "wire"]
    rng.shuffle(rest)
    rng.shuffle(made["inner"])
    made["items"] = first + rest
    return made


def wire(make, made, s):
    rng = make.rng
    depth = rng.randrange(1, 5)
    if s["kind"] == "wire" and rng.random() < 0.2 and not any(x["kind"] == "wire" and x in make.readable for x in made["inner"]):
        made["inner"].remove(s)
        return [["wire", s, make.expression(depth)[0]]]
    if s["ranged"] and s["width"] > 1 and rng.random() < 0.25:
        cut = rng.randrange(1, s["width"])
        low = s["low"]
        high_part = ["part", s["name"], low + s["width"] - 1, low + cut]
        low_part = ["part", s["name"], low + cut - 1, low]
        if rng.random() < 0.3:
            return [["assign", ["join", low_part, high_part], make.expression(depth)[0]]]
        return [["assign", high_part, make.expression(depth)[0]], ["assign", low_part, make.expression(depth)[0]]]
    return [["assign", ["name", s["name"]], make.expression(depth)[0]]]


def block(make, group):
    """A combinational block. It reads its own signals where it has set them."""
    rng = make.rng
    first = make.covering(group, "=", rng.randrange(3))
    held = make.readable
    make.readable = held + group
    body = ["block", first] + [make.statement(group, "=", 2) for _ in range(rng.randrange(3))]
    make.readable = held
    events = "*"
    if rng.random() < 0.2:
        events = "(" + " or ".join(s["name"] for s in held) + ")"
    return ["always", events, body]


def clocked_block(make, group, resets):
    rng = make.rng
    body = ["block"] + [make.statement(group, "<=", 2) for _ in range(rng.randrange(1, 3))]
    for s in group:
        if s["name"] not in targets(body):
            body.append(["set", ["name", s["name"]], "<=", make.expression(2)[0]])
    if not resets or rng.random() < 0.35:
        return ["always", "(posedge clk)", body]
    r = f"r{rng.randrange(resets)}"
    level = rng.random() < 0.5
    edge = f"{'posedge' if level else 'negedge'} {r}"
    condition = ["name", r] if level else ["un", rng.choice("!~"), ["name", r]]
    values = ["block"] + [["set", make.target(group)[0], "<=", make.constant(rng.randrange(2))[0]] for _ in range(rng.randrange(1, 4))]
    events = ["posedge clk", edge]
    rng.shuffle(events)
    return ["always", f"({' or '.join(events)})", ["if", condition, values, body]]


def copy(rng, make, made, child, resets):
    """A copy of a child, its inputs linked to expressions and its outputs to new wires."""
    links, new = [], []
    for port in child["ports"]:
        if port["kind"] == "clock":
            links.append((port["name"], ["name", "clk"]))
        elif port["kind"] == "reset":
            links.append((port["name"], ["name", f"r{rng.randrange(resets)}"]))
        elif port["kind"] == "in":
            links.append((port["name"], make.word(port["width"], 1)))
        else:
            s = signal(rng, f"u_{port['name']}", "wire", port["width"])
            made["inner"].append(s)
            new.append(s)
            links.append((port["name"], ["name", s["name"]]))
    make.readable += new
    rng.shuffle(links)
    over = [(p[3], make.constant(1)[0]) for p in child["params"] if p[0] == "parameter" and rng.random() < 0.5]
    return ["copy", child["name"], "u", over, links]


def expressions(rng, number):
    """A module of assigns alone, over a few inputs."""
    made = module(rng, f"d{number}", rng.choice([3, 8, 16, 33, 64]), False, 0, (1, 2))
    make = Maker(rng, rng.choice([3, 8, 16, 33, 64]))
    make.readable = [s for s in made["ports"] if s["kind"] == "in"]
    made["params"], made["inner"], made["items"] = [], [], []
    made["ports"] = list(make.readable)
    for i in range(rng.randrange(2, 5)):
        s = signal(rng, f"y{i}", "out", min(make.width(), 64))
        made["ports"].append(s)
        made["items"].append(["assign", ["name", s["name"]], make.expression(rng.randrange(1, 5))[0]])
    return {"modules": [made]}


def design(rng, number):
    """A small random design, with one copy of a second module in some."""
    if rng.random() < 0.4:
        return expressions(rng, number)
    cap = rng.choice([3, 6, 8, 12, 20, 40, 64])
    clocked = rng.random() < 0.85
    resets = rng.choice([0, 0, 1, 1, 2]) if clocked else 0
    modules = []
    if rng.random() < 0.25:
        modules.append(module(rng, f"d{number}c", cap, clocked, min(resets, 1), (1, 4)))
    top = module(rng, f"d{number}", cap, clocked, resets, (1, 7), modules[0] if modules else None)
    return {"modules": modules + [top]}
