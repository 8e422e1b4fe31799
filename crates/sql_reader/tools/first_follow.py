#!/usr/bin/env python3
"""Writes the first and follow sets of the grammar of statements, proofs/FirstFollow.antt.

Run it in the crate's folder, after `table.py`. It prints a line for each pair of alternatives that begin alike, and writes
nothing then. Nothing rests on it: the check tests what it writes.
"""

import os

END = "the end"


def load(path):
    source = open(path).read().rstrip()
    assert source.endswith("\nmain()"), "the last line is not the call of main"
    space = {"__name__": "table", "__file__": path}
    exec(compile(source[: -len("main()")], path, "exec"), space)
    return space


class Sets:
    """The first and follow sets, by fixpoint. The end is the kind END."""

    def __init__(self, t, bare, starts):
        self.t = t
        self.rules = {n: [[bare(w) for w in p] for p in ps] for n, ps in t.rules.items()}
        self.first = {n: set() for n in self.rules}
        self.follow = {n: set() for n in self.rules}
        for start in starts:
            self.follow[start].add(END)
        self.grow(self.grow_first)
        self.grow(self.grow_follow)

    def grow(self, step):
        while step():
            pass

    def begins(self, words, rest):
        """What may begin the words and then `rest`, as the definition computes it."""
        for word in reversed(words):
            if word in self.t.tokens:
                rest = set(self.t.kinds_of(word))
            elif word.endswith("!"):
                pass
            elif word[0] == "-":
                rest = rest - set(self.t.kinds_of(word[1:]))
            elif word in self.t.empty:
                rest = self.first[word] | rest
            else:
                rest = set(self.first[word])
        return rest

    def grow_first(self):
        grown = False
        for name, ps in self.rules.items():
            for p in ps:
                more = self.begins(p, set())
                grown |= not more <= self.first[name]
                self.first[name] |= more
        return grown

    def grow_follow(self):
        grown = False
        for name, ps in self.rules.items():
            for p in ps:
                for at, word in enumerate(p):
                    if word in self.rules:
                        more = self.begins(p[at + 1:], self.follow[name])
                        grown |= not more <= self.follow[word]
                        self.follow[word] |= more
        return grown

    def conflicts(self):
        found = []
        for name, ps in self.rules.items():
            sets = [self.begins(p, self.follow[name]) for p in ps]
            for i, x in enumerate(sets):
                for j in range(i + 1, len(sets)):
                    if x & sets[j]:
                        found.append((name, i, j, x & sets[j]))
        return found


def write_certificate(t, sets, order, names, path, crate):
    """The certificate, in the order of the table's rules; equal sets have one name."""
    known = {}
    lines = []

    def part(kinds):
        kinds = set(kinds)
        soft = names <= kinds and len(names) > 1
        if soft:
            kinds -= names
        text = " ∷ ".join([f"symbol.{k}" for k in sorted(kinds)] + ["names" if soft else "[]"])
        return text

    def named(name, kinds):
        key = frozenset(kinds)
        if len(kinds) < 4:
            return part(kinds)
        if key not in known:
            known[key] = name
            lines.append(f"abbrev {name} : List ℕ\n{name} = {part(kinds)}\n")
        return known[key]

    rows = []
    for section, rules in order.items():
        rows.append(f"-- the rules of {section}\nabbrev pub {section} : Certificate\n{section} =")
        for rule in rules:
            first = named(f"{rule}_first", sets.first[rule])
            follow = named(f"{rule}_follow", sets.follow[rule] - {END})
            end = "true" if END in sets.follow[rule] else "false"
            rows.append(f"    -- {rule}")
            rows.append(f"    record {{ first = {first}; follow = record {{ kinds = {follow}; at_end = {end} }} }} ∷")
        rows.append("    []\n")
    count = len(t.tokens) + len(t.guards)
    out = [
        "-- With what the text of each rule begins, and what may come after it.",
        "use Rattle.std.specs.Prelude.{ℕ, true, false, List, [], ◌∷◌, ◌++◌, replicate}",
        "use Rattle.grammar.specs.Predictive.{Certificate, unknown}",
        f"use Rattle.{crate}.specs.Symbols as symbol\n",
        f"-- what may stand as a name\nabbrev names : List ℕ\nnames = {' ∷ '.join('symbol.' + k for k in sorted(names))} ∷ []\n",
    ]
    out += lines
    out += rows
    out += [
        f"-- nothing need be known of the tokens and guards\nabbrev pub tokens : Certificate\ntokens = replicate {count} unknown\n",
        f"abbrev pub certificate : Certificate\ncertificate = tokens ++ {' ++ '.join(order)}",
    ]
    open(path, "w").write("\n".join(out) + "\n")
    return len(known)


def main():
    space = load(os.path.join(os.path.dirname(__file__), "table.py"))
    t = space["Table"]()
    sets = Sets(t, space["bare"], ["statement", "set_only"])
    found = sets.conflicts()
    for name, i, j, kinds in found:
        one, other = (" ".join(t.rules[name][k]) or "nothing" for k in (i, j))
        print(f"{name}: `{one}` and `{other}` both begin with {', '.join(sorted(kinds))}")
    if not found:
        write_certificate(t, sets, t.sections, set(t.kinds_of("NAME")), "proofs/FirstFollow.antt", "sql_reader")


main()
