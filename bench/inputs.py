#!/usr/bin/env python3
"""Writes benchmark inputs, always the same, into a folder, and prints name, words and file of each: inputs.py FOLDER"""

import os
import random
import sys

MIB = 1 << 20
BY_SIGN = "elim --method sign"
BY_CASES = "elim --method dls"


def conjuncts(size, seed):
    """A problem of about the size over two sorts, with functions and equations. Its predicate occurs positively alone."""
    r = random.Random(seed)
    head = ["sort item;"]
    head += [f"fun c{k}:obj;" for k in range(40)] + [f"fun f{k}(obj):obj;" for k in range(10)] + [f"fun g{k}(obj, item):item;" for k in range(10)]
    head += [f"pred Q{k}(obj);" for k in range(40)] + [f"pred R{k}(obj, item);" for k in range(40)]
    head = "\n".join(head) + "\ngoal ex2 P(obj, item). (\n"
    parts, left = [], size - len(head) - 4
    while True:
        n = r.randrange
        part = r.choice([
            lambda: f"all x. (Q{n(40)}(x) & x != c{n(40)} -> all z:item. P(x, z) & ex z:item. (R{n(40)}(x, z) | z = g{n(10)}(x, z)))",
            lambda: f"all z:item. (R{n(40)}(c{n(40)}, z) -> ex x. (R{n(40)}(f{n(10)}(x), z) & P(x, z) & ~Q{n(40)}(f{n(10)}(f{n(10)}(x)))))",
            lambda: f"(Q{n(40)}(c{n(40)}) | ~Q{n(40)}(f{n(10)}(c{n(40)})) <-> all x. all z:item. (R{n(40)}(x, z) -> R{n(40)}(f{n(10)}(x), z)))",
            lambda: f"ex x. ex z:item. (P(x, z) & R{n(40)}(x, z) & (x = f{n(10)}(c{n(40)}) | Q{n(40)}(x)))",
        ])()
        left -= len(part) + 3
        if left < 0:
            return head + " &\n".join(parts) + ");\n"
        parts.append(part)


def nested(opening, closing, size):
    """One atom below as many signs as fit."""
    depth = (size - 60) // (len(opening) + len(closing))
    return "pred Q;\ngoal ex2 P. " + opening * depth + "Q" + closing * depth + ";\n"


def names(n):
    """n names of each kind: functions, predicates, free and bound variables."""
    decls = [f"fun const{k}:obj;\npred Pred{k}(obj);\nvar free{k}:obj;" for k in range(n)]
    parts = [f"all x{k}. (Pred{k}(x{k}) -> P(free{k}) & ~Pred{n - 1 - k}(const{k}))" for k in range(n)]
    return "\n".join(decls) + "\ngoal ex2 P(obj). (" + " &\n".join(parts) + ");\n"


def blocks(n):
    """n blocks side by side."""
    decls = [f"pred Q{k}(obj);" for k in range(20)]
    parts = [f"ex2 P(obj). all x. (Q{k % 20}(x) -> P(x) | Q{k * 7 % 20}(x))" for k in range(n)]
    return "\n".join(decls) + "\ngoal " + " &\n".join(parts) + ";\n"


def guards(n):
    """One guard that gives the predicate its value, and n conjuncts that get it."""
    parts = ["all x. (Q(x) -> P(x))"] + ["all x. (P(x) -> R(x))"] * n
    return "pred Q(obj); pred R(obj); goal ex2 P(obj). (" + " & ".join(parts) + ");\n"


def main():
    folder = sys.argv[1]
    os.makedirs(folder, exist_ok=True)
    inputs = [
        ("N = 10", guards(10), BY_CASES),
        ("N = 100", guards(100), BY_CASES),
        ("N = 1,000", guards(1000), BY_CASES),
        ("N = 2,000", guards(2000), BY_CASES),
        ("conjuncts 1/4 MiB", conjuncts(MIB // 4, 1)),
        ("conjuncts 1/2 MiB", conjuncts(MIB // 2, 1)),
        ("conjuncts 1 MiB", conjuncts(MIB, 1)),
        ("parentheses 1/4 MiB", nested("(", ")", MIB // 4)),
        ("parentheses 1 MiB", nested("(", ")", MIB)),
        ("negations 1/4 MiB", nested("~", "", MIB // 4)),
        ("negations 1 MiB", nested("~", "", MIB)),
        ("20,000 names", names(5000)),
        ("32,000 names", names(8000)),
        ("100 blocks", blocks(100)),
        ("200 blocks", blocks(200)),
        ("400 blocks", blocks(400)),
        ("1000 blocks", blocks(1000)),
    ]
    for number, (name, text, *words) in enumerate(inputs):
        assert len(text) <= MIB, name
        path = os.path.join(folder, f"{number}.txt")
        with open(path, "w") as f:
            f.write(text)
        print(f"{name}\t{words[0] if words else BY_SIGN}\t{path}")


main()
