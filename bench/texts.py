#!/usr/bin/env python3
"""Writes random lists of tokens, one a line, and beside them whether the grammar has them.

usage: texts.py SEED COUNT TEXTS ANSWERS

The grammar is written here a second time, as context-free rules, and decided by Earley's algorithm; about three in
four texts have a token dropped, added or exchanged. Texts are far below the limit on heights.
"""
import random
import sys

RULES = {}


def rule(name, *sides):
    RULES[name] = [side.split() for side in sides]


rule("source", "module source", "")
rule("module", "MODULE ID parameters header ; items endmodule")
rule("parameters", "", "# ( groups )")
rule("groups", "group", "groups , group")
rule("group", "parameter sign range settings")
rule("sign", "", "signed")
rule("range", "", "[ expr : expr ]")
rule("settings", "setting", "settings , setting")
rule("setting", "ID = expr")
rule("header", "", "( )", "( names )", "( ports )")
rule("names", "ID", "names , ID")
rule("ports", "port", "ports , port")
rule("port", "direction kind sign range names")
rule("direction", "input", "output")
rule("kind", "", "wire", "reg")
rule("items", "", "items item")
rule("item", "port ;", "wire sign range nets ;", "reg sign range names ;", "parameter sign range settings ;",
     "localparam sign range settings ;", "assign assigns ;", "always @ control stmt", "ID links copies ;")
rule("nets", "net", "nets , net")
rule("net", "ID", "ID = expr")
rule("assigns", "assignment", "assigns , assignment")
rule("assignment", "target = expr")
rule("control", "*", "( * )", "( events )")
rule("events", "event", "events or event", "events , event")
rule("event", "ID", "posedge ID", "negedge ID")
rule("links", "", "# ( link_list )")
rule("copies", "copy", "copies , copy")
rule("copy", "ID ( link_list )")
rule("link_list", "ordered", "linked")
rule("ordered", "maybe", "ordered , maybe")
rule("maybe", "", "expr")
rule("linked", "link", "linked , link")
rule("link", ". ID ( )", ". ID ( expr )")
# a statement, and one that leaves no `if` open
OTHERS = ["begin label stmts end", ";", "case ( expr ) arms endcase", "casez ( expr ) wild_arms endcase",
          "target = expr ;", "target <= expr ;"]
rule("stmt", *OTHERS, "if ( expr ) stmt", "if ( expr ) closed else stmt")
rule("closed", *OTHERS, "if ( expr ) closed else closed")
rule("label", "", ": ID")
rule("stmts", "", "stmts stmt")
rule("arms", "arm_list", "arm_list default_arm more_arms", "default_arm more_arms")
rule("more_arms", "", "more_arms arm")
rule("arm_list", "arm", "arm_list arm")
rule("default_arm", "default stmt", "default : stmt")
rule("arm", "exprs : stmt")
rule("exprs", "expr", "exprs , expr")
rule("wild_arms", "wild_list", "wild_list default_arm more_wild", "default_arm more_wild")
rule("more_wild", "", "more_wild wild_arm")
rule("wild_list", "wild_arm", "wild_list wild_arm")
rule("wild_arm", "wild_labels : stmt")
rule("wild_labels", "wild_label", "wild_labels , wild_label")
rule("wild_label", "expr", "MASKED")
rule("target", "ID", "ID [ expr ]", "ID [ expr : expr ]", "{ targets }")
rule("targets", "target", "targets , target")
rule("expr", "level1", "level1 ? expr : expr")
LEVELS = ["||", "&&", "|", "^ ~^ ^~", "&", "== !=", "< <= > >=", "<< >> <<< >>>", "+ -", "* / %"]
for at, marks in enumerate(LEVELS, 1):
    rule(f"level{at}", f"level{at + 1}", *[f"level{at} {mark} level{at + 1}" for mark in marks.split()])
rule("level11", "primary", *[f"{mark} level11" for mark in "+ - ! ~ & ~& | ~| ^ ~^ ^~".split()])
rule("primary", "NUMBER", "ID", "ID [ expr ]", "ID [ expr : expr ]", "( expr )", "{ exprs }",
     "{ expr { exprs } }", "$signed ( expr )", "$unsigned ( expr )")

NULLABLE = set()
while True:
    found = {name for name, sides in RULES.items() if any(all(s in NULLABLE for s in side) for side in sides)}
    if found <= NULLABLE:
        break
    NULLABLE |= found

TERMINALS = sorted({s for sides in RULES.values() for side in sides for s in side if s not in RULES})
SPELLINGS = {"ID": ["a", "b", "q", "clk", "m1"], "NUMBER": ["1", "0", "4'd3", "1'b1", "8'hff", "3'o?7"],
             "MASKED": ["2'b1?", "4'bzz01", "2'b?0"], "MODULE": ["module"]}


def is_source(tokens):
    """Earley's algorithm: whether the tokens are a source."""
    sets = [{} for _ in range(len(tokens) + 1)]

    def add(at, item):
        sets[at].setdefault(item)

    for side in range(len(RULES["source"])):
        add(0, ("source", side, 0, 0))
    for at in range(len(tokens) + 1):
        todo, seen = list(sets[at]), 0
        while seen < len(todo):
            name, side, dot, since = todo[seen]
            seen += 1
            symbols = RULES[name][side]
            if dot == len(symbols):
                for outer in list(sets[since]):
                    rest = RULES[outer[0]][outer[1]][outer[2]:]
                    if rest and rest[0] == name:
                        add(at, (outer[0], outer[1], outer[2] + 1, outer[3]))
            elif symbols[dot] in RULES:
                for other in range(len(RULES[symbols[dot]])):
                    add(at, (symbols[dot], other, 0, at))
                if symbols[dot] in NULLABLE:
                    add(at, (name, side, dot + 1, since))
            elif at < len(tokens) and tokens[at] == symbols[dot]:
                add(at + 1, (name, side, dot + 1, since))
            todo += list(sets[at])[len(todo):]
        if not todo:
            return False
    return any(name == "source" and since == 0 and dot == len(RULES[name][side])
               for name, side, dot, since in sets[-1])


def sentence(name, depth):
    if name not in RULES:
        return [name]
    sides = RULES[name]
    is_level = name == "expr" or name.startswith("level")
    if is_level and (depth <= 0 or random.random() < 0.75):
        side = sides[0]
    elif depth <= 0:
        side = ["ID"] if name == "primary" else min(sides, key=lambda s: (sum(x in RULES for x in s), len(s)))
    else:
        side = random.choice(sides)
    return [token for symbol in side for token in sentence(symbol, depth - 1)]


def changed(tokens):
    tokens = list(tokens)
    for _ in range(random.choice([0, 1, 1, 2])):
        if tokens:
            at = random.randrange(len(tokens))
            with_what = random.choice([[], [random.choice(TERMINALS)], [random.choice(TERMINALS), tokens[at]]])
            tokens[at:at + 1] = with_what
    return tokens


def main(seed, count, texts, answers):
    random.seed(int(seed))
    sys.setrecursionlimit(10000)
    written = 0
    with open(texts, "w") as text_file, open(answers, "w") as answer_file:
        while written < int(count):
            tokens = sentence("source", random.randrange(6, 22))
            if 3 < len(tokens) < 70:
                tokens = changed(tokens)
                print(" ".join(random.choice(SPELLINGS.get(t, [t])) for t in tokens), file=text_file)
                print("modules" if is_source(tokens) else "none", file=answer_file)
                written += 1


main(*sys.argv[1:])
