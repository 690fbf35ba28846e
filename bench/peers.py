"""Descriptions of games for other programs: clauses for SWI-Prolog, whose player is player.pl, and rules for gringo."""
import re
import tempfile
from collections.abc import Iterator
from pathlib import Path
from typing import Any

# A name is a str, and a list is a list of trees.
Tree = Any
Body = list[Tree]
PLAYER = Path(__file__).resolve().parent / "player.pl"


def read(text: str) -> list[Tree]:
    """The items of a text: a name is a str, a list is a list."""
    lists: list[list[Tree]] = [[]]
    for word in re.findall(r"[()]|[^\s()]+", re.sub(r";[^\n]*", " ", text.lower())):
        if word == "(":
            lists.append([])
        elif word == ")":
            closed = lists.pop()
            lists[-1].append(closed)
        else:
            lists[-1].append(word)
    return lists[0]


def spread(literal: Tree) -> list[Body]:
    """The bodies of which one has to hold for a literal to hold: `or` and `and` are taken apart."""
    if isinstance(literal, list) and literal[0] == "or":
        return [body for part in literal[1:] for body in spread(part)]
    if isinstance(literal, list) and literal[0] == "and":
        return bodies(literal[1:])
    return [[literal]]


def bodies(literals: Body) -> list[Body]:
    found: list[Body] = [[]]
    for literal in literals:
        found = [body + further for body in found for further in spread(literal)]
    return found


def alternatives(items: list[Tree]) -> Iterator[tuple[Tree, Body]]:
    """Each head with each of its bodies."""
    for item in items:
        if isinstance(item, list) and item[0] == "<=":
            for body in bodies(item[2:]):
                yield item[1], body
        else:
            yield item, []


def parts(tree: Tree) -> tuple[str, list[Tree]]:
    """The name and the arguments of a term or an atom."""
    return (tree[0], tree[1:]) if isinstance(tree, list) else (tree, [])


def signed(literal: Tree) -> tuple[bool, Tree]:
    """Whether a literal is negated, and its atom."""
    negated = isinstance(literal, list) and literal[0] == "not"
    return negated, literal[1] if negated else literal


def plain(name: str) -> str:
    """A name in letters, digits and _ alone."""
    return "".join(c if c.isalnum() else f"_{ord(c):02x}" for c in name)


def is_number(name: str) -> bool:
    return re.fullmatch(r"0|[1-9][0-9]{0,8}", name) is not None


class Prolog:
    """Clauses: the relation r is g_r, a function f is f_f."""

    @staticmethod
    def quoted(name: str) -> str:
        return name if is_number(name) else "'" + name.replace("\\", "\\\\").replace("'", "\\'") + "'"

    @classmethod
    def applied(cls, name: str, arguments: list[Tree]) -> str:
        return cls.quoted(name) + ("(" + ",".join(map(cls.term, arguments)) + ")" if arguments else "")

    @classmethod
    def term(cls, tree: Tree) -> str:
        if isinstance(tree, list):
            return cls.applied("f_" + tree[0], tree[1:])
        return "V_" + plain(tree[1:]) if tree[0] == "?" else cls.quoted(tree)

    @classmethod
    def atom(cls, tree: Tree) -> str:
        name, arguments = parts(tree)
        return cls.applied("g_" + name, arguments)

    @classmethod
    def clause(cls, head: Tree, body: Body) -> str:
        """Negated literals and `distinct` stand behind the others, so that they are ground when they are asked."""
        first, last = [], []
        for negated, atom in map(signed, body):
            name, arguments = parts(atom)
            if name == "distinct":
                last.append((" == " if negated else " \\== ").join(map(cls.term, arguments)))
            elif negated:
                last.append("\\+ " + cls.atom(atom))
            else:
                first.append(cls.atom(atom))
        return cls.atom(head) + (" :- " + ", ".join(first + last) if body else "") + "."

    @classmethod
    def text(cls, items: list[Tree]) -> str:
        asked = [("role", 1), ("base", 1), ("input", 2), ("init", 1), ("next", 1), ("legal", 2), ("goal", 2), ("terminal", 0)]
        clauses: dict[tuple[str, int], list[str]] = {}
        for head, body in alternatives(items):
            for _, atom in map(signed, body):
                name, arguments = parts(atom)
                asked.append((name, len(arguments)))
            name, arguments = parts(head)
            clauses.setdefault((name, len(arguments)), []).append(cls.clause(head, body))
        without = set(asked) - set(clauses) - {("true", 1), ("does", 2), ("distinct", 2)}
        lines = [":- style_check(-singleton).", ":- dynamic g_true/1, g_does/2."]
        lines += [f":- dynamic {cls.quoted('g_' + name)}/{count}." for name, count in sorted(without)]
        return "\n".join(lines + [clause for group in clauses.values() for clause in group]) + "\n"


class Gringo:
    """Rules: the relation r of n arguments is r_rn. What may be true and what may be done is a choice."""

    @classmethod
    def term(cls, tree: Tree) -> str:
        if isinstance(tree, list):
            return "f_" + plain(tree[0]) + "(" + ",".join(map(cls.term, tree[1:])) + ")"
        if tree[0] == "?":
            return "V_" + plain(tree[1:])
        return str(tree) if is_number(tree) else "c_" + plain(tree)

    @classmethod
    def atom(cls, tree: Tree) -> str:
        name, arguments = parts(tree)
        applied = "(" + ",".join(map(cls.term, arguments)) + ")" if arguments else ""
        return f"r_{plain(name)}{len(arguments)}{applied}"

    @classmethod
    def literal(cls, literal: Tree) -> str:
        negated, atom = signed(literal)
        name, arguments = parts(atom)
        if name == "distinct":
            return (" = " if negated else " != ").join(map(cls.term, arguments))
        return ("not " if negated else "") + cls.atom(atom)

    @classmethod
    def text(cls, items: list[Tree]) -> str:
        lines = ["{ r_true1(P) } :- r_base1(P).", "{ r_does2(R,M) } :- r_input2(R,M), r_role1(R)."]
        relations = {("true", 1), ("base", 1), ("input", 2)}
        for head, body in alternatives(items):
            for _, atom in map(signed, body):
                name, arguments = parts(atom)
                relations.add((name, len(arguments)))
            lines.append(cls.atom(head) + (" :- " + ", ".join(map(cls.literal, body)) if body else "") + ".")
        relations.discard(("distinct", 2))
        lines += [f"#defined r_{plain(name)}{count}/{count}." for name, count in sorted(relations)]
        return "\n".join(lines) + "\n"


LANGUAGES: dict[str, type[Prolog] | type[Gringo]] = {"swipl": Prolog, "gringo": Gringo}


def translated(peer: str, rules: Path) -> str:
    """A file with a description in the language of a peer. It is made once."""
    made = Path(tempfile.gettempdir()) / f"gdlsolve-peers-{peer}" / rules.name
    if not made.exists() or made.stat().st_mtime < rules.stat().st_mtime:
        made.parent.mkdir(exist_ok=True)
        made.write_text(LANGUAGES[peer].text(read(rules.read_text())))
    return str(made)


def command(peer: str, rules: Path, words: list[str]) -> list[str]:
    """What a peer runs for `solve`: SWI-Prolog searches, gringo instantiates alone."""
    if peer == "gringo":
        return ["gringo", translated(peer, rules)]
    role, depth = words[words.index("--role") + 1], words[words.index("--depth") + 1]
    return ["swipl", "-O", "-q", "-g", "run", "-t", "halt", str(PLAYER), "--", translated(peer, rules), role, depth]
