#!/usr/bin/env python3
"""Writes random constant expressions for the driver, and the same ones as a Verilog program that prints their words;
or compares what both printed.

usage: constants.py write SEED COUNT LINES VERILOG
       constants.py compare LINES DRIVER-OUTPUT SIMULATOR-OUTPUT

A line is the width of a context, 0 for none, and a module with the expression as its parameter. The program prints
for each line the expression's own width, its own value, the context and the value in it. A number without a size has
32 bits here, so the program says `32'sd`.
"""
import random
import sys

UNARY = "+ - ! ~ & ~& | ~| ^ ~^".split()
BINARY = "* / % + - << >> <<< >>> < <= > >= == != & ^ ~^ | && ||".split()


def literal():
    if random.random() < 0.25:
        return "@" + str(random.choice([0, 1, 2, 3, 5, 7, 255, 2147483647, random.randrange(2 ** 31)]))
    width = random.choice([1, 2, 3, 4, 5, 7, 8, 9, 16, 31, 32, 33, 63, 64, random.randrange(1, 65)])
    value = random.choice([0, 1, 2 ** width - 1, 2 ** (width - 1), random.randrange(2 ** width)])
    base, digits = random.choice([("b", f"{value:b}"), ("o", f"{value:o}"), ("h", f"{value:x}"), ("d", str(value))])
    return f"{width}'{random.choice(['', 's'])}{base}{digits}"


def expression(depth):
    if depth == 0 or random.random() < 0.15:
        return literal()
    kind = random.random()
    one = expression(depth - 1)
    if kind < 0.2:
        return f"{random.choice(UNARY)} ({one})"
    if kind < 0.65:
        mark = random.choice(BINARY)
        is_small = mark[:2] in ("<<", ">>") and random.random() < 0.7
        return f"({one}) {mark} ({'@' + str(random.randrange(40)) if is_small else expression(depth - 1)})"
    if kind < 0.75:
        return f"({one}) ? ({expression(depth - 1)}) : ({expression(depth - 1)})"
    if kind < 0.83:
        return "{" + ", ".join([one] + [expression(depth - 1) for _ in range(random.randrange(3))]) + "}"
    if kind < 0.88:
        return "{" + str(random.randrange(1, 4)) + "{" + one + "}}"
    return f"{random.choice(['$signed', '$unsigned'])}({one})"


def write(seed, count, lines, verilog):
    random.seed(int(seed))
    rows = [(random.choice([0, 0, 0, random.randrange(1, 65)]), expression(random.randrange(1, 5)))
            for _ in range(int(count))]
    with open(lines, "w") as file:
        for context, expr in rows:
            print(f"{context} module m; parameter p = {expr.replace('@', '')}; endmodule", file=file)
    with open(verilog, "w") as file:
        print("module t;", file=file)
        for at, (context, _) in enumerate(rows):
            print(f"reg [{max(context, 1) - 1}:0] x{at};", file=file)
        print("initial begin", file=file)
        for at, (context, expr) in enumerate(rows):
            expr = expr.replace("@", "32'sd")
            print(f"x{at} = {expr};", file=file)
            print(f'$display("%0d %b {context} %b", $bits({expr}), {{{expr}}}, x{at});', file=file)
        print("end endmodule", file=file)


def compare(lines, driver, simulator):
    """Prints each line whose words differ, and how many there were of each answer."""
    counts = {"equal": 0, "different": 0}
    with open(lines) as texts, open(driver) as ours, open(simulator) as theirs:
        for text, our, their in zip(texts, ours, theirs):
            answer, (width, own, context, wide) = our.split(), their.split()
            if len(answer) == 1:
                counts[answer[0]] = counts.get(answer[0], 0) + 1
                continue
            value = wide if int(context) > int(width) else own
            wanted = [str(max(int(width), int(context))), str(int(value, 2)) if "x" not in value else "x"]
            is_equal = [answer[0], answer[2]] == wanted
            counts["equal" if is_equal else "different"] += 1
            if not is_equal:
                print(f"{text.strip()}: {' '.join(answer)}, and not {' '.join(wanted)}")
    print(", ".join(f"{name} {count}" for name, count in counts.items()))


{"write": write, "compare": compare}[sys.argv[1]](*sys.argv[2:])
