#!/usr/bin/env python3
"""Writes the table of the grammar of statements from its productions.

Run it in the crate's folder, and `rt fmt` after it. It writes symbols, soft_words, table and actions in src/ and specs/.
Nothing rests on it: what it writes is read by a reviewer and tested by the check.

In a production a word in capitals is a token, a word with `!` an action and another word a rule. `^` stands before what is
one level deeper, `1:` before the first element of a counted list and `+:` before the next. `-X` is a guard against X.
"""

import os
import re

RESERVED = (
    "all and as asc begin between by case coalesce commit count create cross declare delete desc distinct else end exec "
    "explain false from group having if in inner insert into is join left like limit loop max min not null offset on or "
    "order outer raise rollback select set start sum then true union update values when where while"
).split()

# Words that the grammars of statements, blocks and definitions know, and that may stand as names.
SOFT = (
    "transaction atomic sqlexception accesspattern constraint data database each for foreign instead key of options "
    "primary procedure returns row schema server table trigger type use version view virtual wrapper"
).split()

SIGNS = (
    "name numeral fraction string open close comma dot semicolon equal not_equal less at_most greater at_least plus minus "
    "times bars"
).split()

# Tokens of several kinds.
SETS = {"NAME": ["name"] + SOFT, "CONSTANT": ["numeral", "fraction", "string", "true", "false", "null"]}

GRAMMAR = open(os.path.join(os.path.dirname(__file__), "grammar.txt")).read()

FIRST_WORD = 448

NOWHERE = 511

FIRST_ACTION = 512


def productions():
    """The alternatives of each rule, and the rules of each section: a section begins with a line `-- name`."""
    rules = {}
    sections = {}
    section = current = None
    for line in GRAMMAR.splitlines():
        if line.startswith("-- "):
            section = line[3:].strip()
            sections[section] = []
            continue
        line = line.strip()
        if not line:
            continue
        if line.startswith("|"):
            rules[current].append(line[1:].split())
        else:
            current, rest = line.split(" = ")
            current = current.strip()
            rules[current] = [rest.split()]
            sections[section].append(current)
    return {n: [p for alternative in ps for p in split(alternative)] for n, ps in rules.items()}, sections


def split(words):
    found = [[]]
    for word in words:
        if word == "|":
            found.append([])
        elif word != "nothing":
            found[-1].append(word)
    return found


def bare(word):
    return re.sub(r"^(\^|1:|\+:)", "", word)


def place(word):
    return {"^": "deeper", "1": "first", "+": "next"}.get(word[0], "same")


class Table:
    def __init__(self):
        self.rules, self.sections = productions()
        words = [bare(w) for ps in self.rules.values() for p in ps for w in p]
        soft = [word for word in SOFT if word.upper() in words]
        self.tokens = [token.upper() for token in RESERVED + soft + SIGNS] + ["CONSTANT"]
        self.guards = sorted({w for w in words if w[0] == "-"})
        self.actions = []
        for word in words:
            if word.endswith("!") and word not in self.actions:
                self.actions.append(word)
        symbols = self.tokens + self.guards + list(self.rules)
        self.numbers = {word: at for at, word in enumerate(symbols)}
        for at, word in enumerate(self.actions):
            self.numbers[word] = FIRST_ACTION + at
        assert len(symbols) <= FIRST_WORD and FIRST_WORD + len(SOFT) <= NOWHERE
        for word in words:
            assert word in self.numbers, word
        self.measure()

    def kinds_of(self, token):
        words = SETS.get(token, [token.lower()])
        return [w.upper() + "_WORD" if w in SOFT else w.upper() for w in words]

    def solid(self, word):
        return word in self.tokens or (word in self.rules and word not in self.empty)

    def weigh(self, words):
        total = 0
        for word in words:
            if word in self.tokens:
                return total
            total += self.weight[word] if word in self.rules else 1
            if self.solid(word):
                return total
        return total

    def measure(self):
        rules = {n: [[bare(w) for w in p] for p in ps] for n, ps in self.rules.items()}
        self.empty = set()
        grown = None
        while grown != len(self.empty):
            grown = len(self.empty)
            for name, ps in rules.items():
                if any(all(w in self.empty or w.endswith("!") or w[0] == "-" for w in p) for p in ps):
                    self.empty.add(name)
        self.weight = {n: 0 for n in rules}
        for _ in range(len(rules) + 1):
            for name, ps in rules.items():
                self.weight[name] = 1 + max(self.weigh(p) for p in ps)
        assert max(self.weight.values()) < 1000, "left recursion"
        self.rank = {}
        while len(self.rank) < len(rules):
            ready = {
                n: 1 + min(
                    max([self.rank.get(w, 0) for w in p], default=0)
                    for p in ps
                    if all(w not in rules or w in self.rank for w in p)
                )
                for n, ps in rules.items()
                if n not in self.rank and any(all(w not in rules or w in self.rank for w in p) for p in ps)
            }
            assert ready, "a rule without an end"
            self.rank.update(ready)

    def constant(self, word):
        if word.endswith("!"):
            return word[:-1].upper() + "_ACTION"
        if word[0] == "-":
            return "NO_" + word[1:]
        return word if word in self.tokens else word.upper() + "_RULE"

    def text(self, name):
        return " | ".join(" ".join(p) or "nothing" for p in self.rules[name])

    def items(self, words, form, end):
        """The items of an alternative, each in a form of its place and its symbol."""
        return [form.format(place(w), self.constant(bare(w))) for w in words] + end


def camel(word):
    return "".join(part.capitalize() for part in word.split("_"))


GROUPS = {}
for line in open(os.path.join(os.path.dirname(__file__), "actions.txt")):
    words = line.split()
    if words:
        GROUPS[words[0]] = (words[1], words[2])


def action(word, path):
    """The value of Action for an action's name, in code or in a definition."""
    group, value = GROUPS[word[:-1]]
    head, _, argument = value.partition(":")
    if path == "rust":
        inside = head + (f"({argument.replace('.', '::')})" if argument else "")
        return f"Action::{group}({group}Action::{inside})"
    module = {"Token": "token", "Expr": "expr", "Query": "query", "Statement": "statement"}[group]
    inside = f"({module}.{head} {lower_first(argument)})" if argument else f"{module}.{head}"
    return f"action.{group} {inside}"


def lower_first(word):
    if "." not in word:
        return word
    head, tail = word.split(".")
    return head.lower() + "." + tail


def write_symbols(t):
    names = [(t.constant(word), number) for word, number in t.numbers.items()]
    names += [(word.upper() + "_WORD", FIRST_WORD + at) for at, word in enumerate(SOFT)]
    out = [
        "//! The numbers of the grammar: kinds of tokens, symbols and actions. It is written by `tools/table.py`.",
        "//!",
        "//! A kind of tokens has the number of its own symbol; the words that may stand as names have kinds of their own.",
        "",
        "/// The kind of the first word that the grammars know and that may stand as a name.",
        f"pub const FIRST_WORD: u16 = {FIRST_WORD};\n",
        "/// The kind of a token that stands nowhere.",
        f"pub const NOWHERE: u16 = {NOWHERE};\n",
        "/// The number of the first action.",
        f"pub const FIRST_ACTION: u16 = {FIRST_ACTION};\n",
    ]
    out += [f"pub const {name}: u16 = {number};\n" for name, number in names]
    open("src/symbols.rt", "w").write("\n".join(out))
    spec = [
        "-- The numbers of the grammar: kinds of tokens, symbols and actions. It is written by `tools/table.py`.",
        "-- A kind of tokens has the number of its own symbol; the words that may stand as names have kinds of their own.",
        "use Rattle.std.specs.Prelude.{ℕ}\n",
        "-- the kind of the first word that the grammars know and that may stand as a name",
        f"abbrev pub FIRST_WORD : ℕ\nFIRST_WORD = {FIRST_WORD}\n",
        "-- the kind of a token that stands nowhere",
        f"abbrev pub NOWHERE : ℕ\nNOWHERE = {NOWHERE}\n",
        f"abbrev pub FIRST_ACTION : ℕ\nFIRST_ACTION = {FIRST_ACTION}\n",
    ]
    spec += [f"abbrev pub {name} : ℕ\n{name} = {number}\n" for name, number in names]
    open("specs/Symbols.antt", "w").write("\n".join(spec))
    names = ", ".join(f'b"{word}"' for word in SOFT)
    out = [
        "//! Words that the grammars know and that may stand as names. It is written by `tools/table.py`.\n",
        "/// In lower case, by their kinds from the first one.",
        f"pub(crate) static SOFT_WORDS: [&[u8]; {len(SOFT)}] = [{names}];\n",
    ]
    open("src/soft_words.rt", "w").write("\n".join(out))
    spec = [
        "-- Words that the grammars know and that may stand as names. It is written by `tools/table.py`.",
        "use Rattle.std.specs.Prelude.{ℕ, List, [], ◌∷◌, Option, codes}",
        "use Rattle.sql_reader.specs.Words.{place_of}\n",
        "-- in lower case, by their kinds from the first one",
        "abbrev pub soft_words : List (List ℕ)",
        "soft_words =",
    ]
    spec += [f'    codes "{word}" ∷' for word in SOFT] + ["    []\n"]
    spec += ["-- the place of a word in any case, if it is one", "unfoldable pub soft : List ℕ → Option ℕ", "soft word = place_of word soft_words\n"]
    open("specs/SoftWords.antt", "w").write("\n".join(spec))


def write_part(out, name, note, count, rows):
    out.append(f"/// {note}")
    out.append(f"static {name.upper()}: [Rule<'static>; {count}] = [")
    out += rows
    out.append("];\n")
    out.append(f"/// {note}")
    out.append(f"fn {name}() -> &'static [Rule<'static>]")
    out.append(f"    ensures {{ shapes result.now ≡ spec.{name} }}")
    out.append(f"{{\n    &{name.upper()}\n}}\n")


def token_rows(t):
    rows = [f"    Rule::Token(&[{', '.join(t.kinds_of(word))}])," for word in t.tokens]
    return rows + [f"    Rule::Unless(&[{', '.join(t.kinds_of(word[1:]))}])," for word in t.guards]


def rule_rows(t, names):
    rows = []
    for name in names:
        alternatives = ", ".join("&[" + ", ".join(t.items(p, "{}!({})", [])) + "]" for p in t.rules[name])
        solid = "false" if name in t.empty else "true"
        rows.append(f"    // {name}")
        rows.append(
            f"    Rule::Choice {{ weight: {t.weight[name]}, solid: {solid}, rank: {t.rank[name]}, alternatives: &[{alternatives}] }},"
        )
    return rows


def write_table(t):
    parts = ["tokens"] + list(t.sections)
    count = len(t.tokens) + len(t.guards) + len(t.rules)
    out = ["//! The table of the grammar of statements. It is written by `tools/table.py`, and is that of `specs/Table`.", ""]
    out.append("ghost use Rattle.std.specs.Prelude.{◌≡◌, ◌++◌, IfOk};")
    out.append("ghost use Rattle.grammar.specs.Table.{shapes};")
    out.append("ghost use Rattle.sql_reader.specs.Table as spec;\n")
    out.append("use crate::symbols::*;")
    out.append("use grammar::{Item, Place, Rule};")
    out.append("use std::alloc::Global;")
    out.append("use vdb_base::NoMemory;\n")
    for macro in ("same", "deeper", "first", "next"):
        out.append(
            f"macro_rules! {macro} {{ ($symbol:expr) => {{ Item {{ symbol: $symbol, place: Place::{macro.capitalize()} }} }}; }}\n"
        )
    out.append("/// How many rules there are.")
    out.append(f"const RULE_COUNT: usize = {count};\n")
    rows = token_rows(t)
    write_part(out, "tokens", "The tokens, and the guards.", len(rows), rows)
    for section, names in t.sections.items():
        write_part(out, section, f"The rules of {section}.", len(names), rule_rows(t, names))
    out.append("/// The rules of a table, and further ones behind them.")
    out.append("#[tactic(auto, using(grammar::proofs::Tables::shapes_join))]")
    out.append("pub fn extended(rules: Vec<Rule<'static>>, more: &[Rule<'static>]) -> Result<Vec<Rule<'static>>, NoMemory>")
    out.append("    ensures { IfOk result (λ longer. shapes longer.items ≡ shapes rules.entry.items ++ shapes more.now) }")
    out.append("{\n    let mut rules = rules;\n    rules.extend_from_slice(more)?;\n    Ok(rules)\n}\n")
    out.append("/// The rule of each symbol, by its number. It is copied, so that a larger grammar can go on with rules of its own.")
    out.append("pub fn rules(alloc: Global) -> Result<Vec<Rule<'static>>, NoMemory>")
    out.append("    ensures { IfOk result (λ rules. shapes rules.items ≡ spec.table) }\n{")
    out.append("    let rules = Vec::with_capacity(alloc, RULE_COUNT)?;")
    out += [f"    let rules = extended(rules, {part}())?;" for part in parts]
    out.append("    Ok(rules)\n}\n")
    open("src/table.rt", "w").write("\n".join(out))
    spec = [
        "-- The grammar of statements: what each symbol stands for, by its number. It is written by `tools/table.py`.",
        "-- Before each rule stands its production: a word in capitals is a token, a word with `!` an action; `^` is before what",
        "-- is one level deeper, `1:` before the first element of a counted list, `+:` before the next, and `-X` is a guard against X.",
        "use Rattle.std.specs.Prelude.{ℕ, true, false, List, [], ◌∷◌, ◌++◌}",
        "use Rattle.grammar.specs.Table.{Rules, Token, Unless, Choice}",
        "use Rattle.grammar.specs.declared.table.Item.{Item}",
        "use Rattle.grammar.specs.declared.table.Place.TheVariants as place",
        "use Rattle.sql_reader.specs.Symbols as symbol",
        "",
    ]
    for macro, note in (
        ("same", "as deep, in the same element of a counted list"),
        ("deeper", "one level deeper"),
        ("first", "in the first element of a counted list"),
        ("next", "in the next element"),
    ):
        spec.append(f"-- {note}\nabbrev pub {macro} : ℕ → Item\n{macro} n = record {{ symbol = n; place = place.{macro.capitalize()} }}\n")
    spec.append("-- the tokens, and the guards\nabbrev pub tokens : Rules\ntokens =")
    for word in t.tokens:
        spec.append(f"    -- {word}\n    Token ({qualified(t.kinds_of(word))} ∷ []) ∷")
    for word in t.guards:
        spec.append(f"    -- {word}\n    Unless ({qualified(t.kinds_of(word[1:]))} ∷ []) ∷")
    spec.append("    []\n")
    for section, names in t.sections.items():
        spec.append(f"-- the rules of {section}\nabbrev pub {section} : Rules\n{section} =")
        for name in names:
            alternatives = "\n        ∷ ".join(
                "(" + " ∷ ".join(t.items(p, "{} symbol.{}", ["[]"])) + ")" for p in t.rules[name]
            )
            solid = "false" if name in t.empty else "true"
            spec.append(f"    -- {name} = {t.text(name)}")
            spec.append(f"    Choice {t.weight[name]} {solid} {t.rank[name]}\n        ({alternatives}\n        ∷ []) ∷")
        spec.append("    []\n")
    spec.append("-- the grammar of statements\nabbrev pub table : Rules")
    spec.append(f"table = {' ++ '.join(parts)}")
    open("specs/Table.antt", "w").write("\n".join(spec) + "\n")


def qualified(kinds):
    return " ∷ ".join("symbol." + kind for kind in kinds)


def write_actions(t):
    values = [action(word, "rust") for word in t.actions]
    out = ["//! What each action of the grammar builds. It is written by `tools/table.py`, and is that of `specs/Actions`.", ""]
    out.append("use crate::build::{Action, ExprAction, QueryAction, StatementAction, TokenAction};")
    out.append("use crate::tree::{Aggregate, Comparison, Operator};\n")
    out.append("/// By the number of the action, from the first.")
    out.append(f"pub(crate) static ACTIONS: [Action; {len(t.actions)}] = [")
    for word, value in zip(t.actions, values):
        out.append(f"    // {word}\n    {value},")
    out.append("];\n")
    open("src/actions.rt", "w").write("\n".join(out))
    spec = [
        "-- What each action of the grammar builds, in the order of their numbers. It is written by `tools/table.py`.",
        "use Rattle.std.specs.Prelude.{true, false, List, [], ◌∷◌}",
        "use Rattle.sql_reader.specs.declared.build.Action.{Action}",
        "use Rattle.sql_reader.specs.declared.build.Action.TheVariants as action",
        "use Rattle.sql_reader.specs.declared.build.TokenAction.TheVariants as token",
        "use Rattle.sql_reader.specs.declared.build.ExprAction.TheVariants as expr",
        "use Rattle.sql_reader.specs.declared.build.QueryAction.TheVariants as query",
        "use Rattle.sql_reader.specs.declared.build.StatementAction.TheVariants as statement",
        "use Rattle.sql_reader.specs.declared.tree.expr.Operator.TheVariants as operator",
        "use Rattle.sql_reader.specs.declared.tree.expr.Comparison.TheVariants as comparison",
        "use Rattle.sql_reader.specs.declared.tree.expr.Aggregate.TheVariants as aggregate\n",
        "abbrev pub actions : List Action\nactions =",
    ]
    for word in t.actions:
        spec.append(f"    -- {word}\n    {action(word, 'antt')} ∷")
    spec.append("    []")
    open("specs/Actions.antt", "w").write("\n".join(spec) + "\n")


def main():
    t = Table()
    write_symbols(t)
    write_table(t)
    write_actions(t)


main()
