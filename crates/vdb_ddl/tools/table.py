#!/usr/bin/env python3
"""Writes the table of the grammar of DDL items from its productions, behind the table of statements.

Run it in the crate's folder, and `rt fmt` after it. It writes symbols, table and actions in src/ and specs/. It is made of
the tool of sql_reader, which tells the notation of `grammar.txt`. Nothing rests on it: what it writes is read by a reviewer
and tested by the check.
"""

import os
from types import SimpleNamespace

HERE = os.path.dirname(os.path.abspath(__file__))

GRAMMAR = open(os.path.join(HERE, "grammar.txt")).read()


def load(path):
    """The names of another tool, which isn't run."""
    source = open(path).read().rstrip()
    assert source.endswith("\nmain()"), "the last line is not the call of main"
    names = {"__name__": "table", "__file__": path}
    exec(compile(source[: -len("main()")], path, "exec"), names)
    return names


NAMES = load(os.path.join(HERE, "..", "..", "sql_reader", "tools", "table.py"))

sql = SimpleNamespace(**NAMES)


def productions(grammar):
    """The alternatives of each rule of a grammar, and the rules of each section."""
    NAMES["GRAMMAR"] = grammar
    read = sql.productions()
    NAMES["GRAMMAR"] = sql.GRAMMAR
    return read


# The words of items, each with a kind that sql_reader gives it, and the token of several kinds.
WORDS = (
    "constraint data database foreign key options primary schema server table type use version view virtual wrapper"
).split()

LITERAL = ["string", "numeral", "true", "false"]

FIRST_ACTION = 768


class Table(sql.Table):
    def __init__(self):
        base = sql.Table()
        rules, self.sections = productions(GRAMMAR)
        assert not set(rules) & set(base.rules), "a rule of both grammars"
        self.base = base
        self.words = [word.upper() for word in WORDS] + ["LITERAL"]
        self.own_rules = list(rules)
        self.rules = {**base.rules, **rules}
        self.tokens = base.tokens + self.words
        used = [sql.bare(w) for ps in rules.values() for p in ps for w in p]
        self.actions = []
        for word in used:
            if word.endswith("!") and word not in base.actions and word not in self.actions:
                self.actions.append(word)
        self.own = {word: len(base.tokens + base.guards) + len(base.rules) + at for at, word in enumerate(self.words + self.own_rules)}
        self.own.update({word: FIRST_ACTION + at for at, word in enumerate(self.actions)})
        for word in used:
            assert word in self.own or word in base.numbers, word
        self.measure()

    def kinds_of(self, token):
        return [word.upper() for word in LITERAL] if token == "LITERAL" else [token + "_WORD"]

    def foreign(self):
        """The numbers of sql_reader that the table has."""
        words = [sql.bare(w) for n in self.own_rules for p in self.rules[n] for w in p]
        used = {self.constant(w) for w in words if w not in self.own}
        return sorted(used | {kind for word in self.words for kind in self.kinds_of(word)})

    def qualified(self, word):
        return ("symbol." if word in self.own else "sql.") + self.constant(word)


def camel(word):
    return "".join(part.capitalize() for part in word.split("_"))


def write_symbols(t):
    names = [(t.constant(word), number) for word, number in t.own.items()]
    title = "The numbers of the grammar of items, behind those of statements. It is written by `tools/table.py`."
    first = "the number of the first action of items"
    out = [f"//! {title}\n", f"/// {first.capitalize()}.", f"pub const FIRST_DDL_ACTION: u16 = {FIRST_ACTION};\n"]
    out += [f"pub const {name}: u16 = {number};\n" for name, number in names]
    open("src/symbols.rt", "w").write("\n".join(out))
    spec = [f"-- {title}", "use Rattle.std.specs.Prelude.{ℕ}\n", f"-- {first}"]
    spec += [f"abbrev pub FIRST_DDL_ACTION : ℕ\nFIRST_DDL_ACTION = {FIRST_ACTION}\n"]
    spec += [f"abbrev pub {name} : ℕ\n{name} = {number}\n" for name, number in names]
    open("specs/Symbols.antt", "w").write("\n".join(spec))


def code_rows(t):
    rows = []
    for name in t.own_rules:
        alternatives = ", ".join("&[" + ", ".join(t.items(p, "{}!({})", [])) + "]" for p in t.rules[name])
        solid = "false" if name in t.empty else "true"
        rows.append(f"    // {name}")
        rows.append(
            f"    Rule::Choice {{ weight: {t.weight[name]}, solid: {solid}, rank: {t.rank[name]}, alternatives: &[{alternatives}] }},"
        )
    return rows


def write_code(t):
    out = ["//! The table of the grammar of items. It is written by `tools/table.py`, and is that of `specs/Table`.\n"]
    out.append("ghost use Rattle.std.specs.Prelude.{◌≡◌, IfOk};")
    out.append("ghost use Rattle.grammar.specs.Table.{shapes};")
    out.append("ghost use Rattle.vdb_ddl.specs.Table as spec;\n")
    out.append("use crate::symbols::*;")
    out.append("use grammar::{Item, Place, Rule};")
    out.append(f"use sql_reader::symbols::{{{', '.join(t.foreign())}}};")
    out.append("use sql_reader::table::extended;")
    out.append("use std::alloc::Global;")
    out.append("use vdb_base::NoMemory;\n")
    for macro in ("same", "deeper"):
        out.append(
            f"macro_rules! {macro} {{ ($symbol:expr) => {{ Item {{ symbol: $symbol, place: Place::{macro.capitalize()} }} }}; }}\n"
        )
    rows = [f"    Rule::Token(&[{', '.join(t.kinds_of(word))}])," for word in t.words]
    sql.write_part(out, "words", "The tokens of items.", len(rows), rows)
    sql.write_part(out, "items", "The rules of items.", len(t.own_rules), code_rows(t))
    out.append("/// The rule of each symbol, by its number.")
    out.append("pub(crate) fn rules(alloc: Global) -> Result<Vec<Rule<'static>>, NoMemory>")
    out.append("    ensures { IfOk result (λ rules. shapes rules.items ≡ spec.table) }\n{")
    out.append("    let rules = sql_reader::table::rules(alloc)?;")
    out.append("    let rules = extended(rules, words())?;")
    out.append("    extended(rules, items())\n}\n")
    open("src/table.rt", "w").write("\n".join(out))


def write_spec(t):
    spec = [
        "-- The grammar of DDL items: what each symbol stands for, by its number, behind those of statements. It is written by",
        "-- `tools/table.py`. Before each rule stands its production: a word in capitals is a token, a word with `!` an action,",
        "-- and `^` is before what is one level deeper.",
        "use Rattle.std.specs.Prelude.{true, false, [], ◌∷◌, ◌++◌}",
        "use Rattle.grammar.specs.Table.{Rules, Token, Choice}",
        "use Rattle.sql_reader.specs.Symbols as sql",
        "use Rattle.sql_reader.specs.Table as statements",
        "use Rattle.sql_reader.specs.Table.{same, deeper}",
        "use Rattle.vdb_ddl.specs.Symbols as symbol\n",
        "-- the tokens of items\nabbrev pub words : Rules\nwords =",
    ]
    for word in t.words:
        kinds = " ∷ ".join("sql." + kind for kind in t.kinds_of(word))
        spec.append(f"    -- {word}\n    Token ({kinds} ∷ []) ∷")
    spec.append("    []\n")
    spec.append("-- the rules of items\nabbrev pub items : Rules\nitems =")
    for name in t.own_rules:
        parts = [[f"{sql.place(w)} {t.qualified(sql.bare(w))}" for w in p] + ["[]"] for p in t.rules[name]]
        alternatives = "\n        ∷ ".join("(" + " ∷ ".join(part) + ")" for part in parts)
        solid = "false" if name in t.empty else "true"
        spec.append(f"    -- {name} = {t.text(name)}")
        spec.append(f"    Choice {t.weight[name]} {solid} {t.rank[name]}\n        ({alternatives}\n        ∷ []) ∷")
    spec.append("    []\n")
    spec.append("-- the grammar of items\nabbrev pub table : Rules\ntable = (statements.table ++ words) ++ items")
    open("specs/Table.antt", "w").write("\n".join(spec) + "\n")


def write_actions(t):
    out = ["//! What each action of items builds. It is written by `tools/table.py`, and is that of `specs/Actions`.\n"]
    out.append("use crate::build::Action;\n")
    out.append("/// By the number of the action, from the first.")
    out.append(f"pub(crate) static ACTIONS: [Action; {len(t.actions)}] = [")
    out += [f"    Action::{camel(word[:-1])}," for word in t.actions]
    out.append("];\n")
    open("src/actions.rt", "w").write("\n".join(out))
    spec = [
        "-- What each action of items builds, in the order of their numbers. It is written by `tools/table.py`.",
        "use Rattle.std.specs.Prelude.{List, [], ◌∷◌}",
        "use Rattle.vdb_ddl.specs.declared.build.Action.{Action}",
        "use Rattle.vdb_ddl.specs.declared.build.Action.TheVariants as action\n",
        "abbrev pub actions : List Action\nactions =",
    ]
    spec += [f"    action.{camel(word[:-1])} ∷" for word in t.actions] + ["    []"]
    open("specs/Actions.antt", "w").write("\n".join(spec) + "\n")


def main():
    t = Table()
    write_symbols(t)
    write_code(t)
    write_spec(t)
    write_actions(t)


if __name__ == "__main__":
    main()
