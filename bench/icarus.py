"""Cycles of designs by Icarus Verilog: what they show and lead to from given registers and inputs, in two values."""
import os
import subprocess

import designs


def bench_lines(design, cycles):
    """What the testbench declares, and what it does, for one design."""
    name, clock = design["modules"][-1]["name"], designs.clock(design)
    ports, shown = designs.inputs(design), designs.outputs(design)
    declared = [f"reg [{width - 1}:0] {name}_{port};" for port, width, _ in ports]
    declared += [f"wire [{width - 1}:0] {name}_{port};" for port, width in shown]
    links = [f".{port}({name}_{port})" for port, _, _ in ports] + [f".{port}({name}_{port})" for port, _ in shown]
    if clock:
        declared.append(f"reg {name}_{clock} = 0;")
        links.append(f".{clock}({name}_{clock})")
    declared.append(f"{name} {name}_it({', '.join(links)});")
    states = designs.registers(design)
    lines = []
    for state, given in cycles:
        resets = [(port, value) for (port, _, kind), value in zip(ports, given) if kind == "reset"]
        lines += [f"{name}_{port} = ~1'b{value};" for port, value in resets] + ["#1;"]
        lines += [f"{name}_it.{path} = {width}'b{value};" for (path, width), value in zip(states, state)]
        lines += [f"{name}_{port} = {width}'b{value};" for (port, width, kind), value in zip(ports, given) if kind != "reset"]
        lines += ["#1;"] + [f"{name}_{port} = 1'b{value};" for port, value in resets] + ["#1;"]
        outs = "".join("%b" for _ in shown), "".join(f", {name}_{port}" for port, _ in shown)
        lines.append(f'$write("{name} ={outs[0]}"{outs[1]});')
        lines += [f"{name}_{clock} = 1; #1;"] if clock else []
        nexts = "".join("%b" for _ in states), "".join(f", {name}_it.{path}" for path, _ in states)
        lines.append(f'$display(" ={nexts[0]}"{nexts[1]});')
        lines += [f"{name}_{clock} = 0; #1;"] if clock else []
    return declared, lines


def simulated(pairs, room, label):
    """A line of outputs and next values for each cycle of each design, or what the simulator says of one."""
    text, declared, lines = [], [], []
    for design, cycles in pairs:
        text.append(designs.text_of(design, sized=True))
        more = bench_lines(design, cycles)
        declared += more[0]
        lines += more[1]
    source, program = os.path.join(room, f"bench{label}.v"), os.path.join(room, f"bench{label}")
    with open(source, "w") as file:
        file.write("\n".join(text + ["module bench;"] + declared + ["initial begin"] + lines + ["$finish; end", "endmodule", ""]))
    done = subprocess.run(["iverilog", "-g2005", "-gstrict-expr-width", "-s", "bench", "-o", program, source],
                          capture_output=True, text=True)
    if done.returncode:
        if len(pairs) > 1:
            return {k: v for i, pair in enumerate(pairs) for k, v in simulated([pair], room, f"{label}_{i}").items()}
        return {pairs[0][0]["modules"][-1]["name"]: done.stderr}
    try:
        out = subprocess.run(["vvp", "-n", program], capture_output=True, text=True, timeout=20).stdout
    except subprocess.TimeoutExpired:
        return {design["modules"][-1]["name"]: "no end in 20 seconds" for design, _ in pairs}
    answers = {design["modules"][-1]["name"]: [] for design, _ in pairs}
    for line in out.split("\n"):
        name, _, rest = line.partition(" ")
        if name in answers:
            answers[name].append(rest)
    return answers
