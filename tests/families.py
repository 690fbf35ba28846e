"""Texts that are made to hurt, each family by a number: twice the number is about twice the text, or twice what it asks for."""

from __future__ import annotations

import bisect
import itertools
import random
from collections.abc import Callable
from dataclasses import dataclass

LETTERS = "abcdefghijklmnopqrstuvwxyz0123456789"
# A number is mixed into a hash by this factor, modulo the count of hashes.
FACTOR, HASHES = 11_400_714_819_323_198_485, 1 << 64


@dataclass(frozen=True)
class Family:
    """One kind of text: its name, the command that it hurts, the text of each size, and what the sizes are."""

    name: str
    command: str
    text: Callable[[int], str]
    sizes: tuple[int, int, int]


def facts(word: str, count: int) -> str:
    """So many facts of one relation."""
    return "".join(f"({word} {number})" for number in range(count))


def dear_in_another_order(literals: int) -> str:
    """A join that is cheap as it is written, and dear in the order that the first linked literal leads to."""
    ends = "".join(f" (h ?x ?z{number})" for number in range(literals))
    return f"(role a){facts('d', 64)}(s z)(<= (h ?x ?z) (d ?x) (d ?z))(<= (p ?x ?y) (d ?x) (d ?y) (s ?y){ends})"


def long_body(literals: int) -> str:
    """A body of many literals without variables behind two that share none."""
    return f"(role a)(u){facts('d', 64)}(<= (p ?x ?y) (d ?x) (d ?y){' u' * literals})"


def tables_anew(literals: int) -> str:
    """Many literals of a large relation behind a level without rows, in 64 alternatives."""
    large = "(<= (d (f ?a ?b ?c ?e)) (n ?a) (n ?b) (n ?c) (n ?e))"
    return f"(role a)(u){facts('n', 22)}{large}(<= (q ?x) (z) (or{' u' * 64}){'(d ?x)' * literals})"


def ground_rules(count: int) -> str:
    """Rules without variables over many base propositions, as a program may write them."""
    chance = random.Random(2)
    place: Callable[[], str] = lambda: "(n %d %d %d %d)" % tuple(chance.randrange(16) for _ in range(4))  # noqa: E731
    rules = "\n".join(f"(<= (next {place()}) (true {place()}) (true {place()}) (true {place()}))" for _ in range(count))
    return f"(role a){facts('d', 16)}(<= (base (n ?a ?b ?c ?e)) (d ?a) (d ?b) (d ?c) (d ?e)){rules}"


def rows_that_all_fail(count: int) -> str:
    """Rows that one test refuses, which is decided by the last of four literals."""
    lists = "(g ?a ?b ?c ?e)"
    return f"(role a){facts('d', count)}(<= p (d ?a)(d ?b)(d ?c)(d ?e)(distinct {lists} {lists}))"


def places_of_variables(literals: int) -> str:
    """Many literals that read one variable behind many that read none."""
    return f"(role a)(u)(d 1)(<= (p ?x){' u' * (3 * literals)}{'(d ?x)' * literals})"


def early_tests(tests: int) -> str:
    """Many tests that one level decides, in front of many levels."""
    return f"(role a)(u)(d 1)(d 2)(d 3)(d 4)(<= (p ?x) (d ?x){' u' * (5 * tests)}{'(distinct ?x b)' * tests})"


def four_of_each(count: int, literals: str) -> str:
    """A relation of all rows of four values, with these literals behind them."""
    return f"(role a)(base t)(u){facts('n', count)}(<= (p ?a ?b ?c ?e) (n ?a) (n ?b) (n ?c) (n ?e){literals})"


def negated_atoms(length: int) -> str:
    """A negated literal of many arguments in each of 28,561 rows, which nothing can match."""
    return four_of_each(13, f"(not (q ?a ?b ?c ?e{' 1' * length}))")


def same_bodies(literals: int) -> str:
    """The same literals without variables in each of 28,561 instances."""
    return four_of_each(13, " w" * literals) + "(<= w (true t))"


def terms_of_each_row(count: int) -> str:
    """Terms without variables in a negated literal of each of 10,000 rows."""
    terms = "".join(f" (f {number // 30} {number % 30})" for number in range(count))
    return four_of_each(10, f"(not (q{terms}))")


def alternatives_of_one_item(literals: int) -> str:
    """An item of 64 alternatives that share many literals."""
    return f"(role a)(u)(<= p (or{' u' * 64}){' u' * literals})"


def names_of_two_arities(items: int) -> str:
    """A relation of two lengths, of which each rule reads the shorter, behind a literal that nothing matches."""
    large = "(<= (e ?a ?b ?c ?e) (n ?a) (n ?b) (n ?c) (n ?e))(<= (d ?x ?y) (e ?x ?y 1 1))(<= (d ?x ?y ?z) (d ?x ?y) (n ?z) (n 30))"
    return f"(role a){facts('n', 22)}(d){large}{'(<= (r ?x ?y) (n 30) (d ?x ?y))' * items}"


def rows_in_another_order(literals: int) -> str:
    """Rows that are found in another order, of many literals each."""
    return f"(role a)(u){facts('d', 120)}(<= (p ?x ?y) (d ?x) (d ?y){' u' * literals} (d ?x))"


def chain_of_joins(count: int) -> str:
    """A chain of literals of which most rows end nowhere: the last relation has one row."""
    pairs = "".join(f"(e {number} {(number * 7 + step) % count})" for number in range(count) for step in range(8))
    return f"(role a)(last {count - 1} z){pairs}(<= (p ?a ?b) (e ?a ?b) (e ?b ?c) (e ?c ?x) (last ?x ?y))"


def many_names(count: int) -> str:
    """A body of so many names."""
    names = "".join(f" {LETTERS[n // 46656 % 36]}{LETTERS[n // 1296 % 36]}{LETTERS[n // 36 % 36]}{LETTERS[n % 36]}x" for n in range(count))
    return f"(role a)(<= q{names})"


def bodies_of_alternatives(count: int) -> str:
    """Rules that each rest on one long body."""
    return f"(role a)(u)(<= wide{' u' * (count * 16)}){''.join(f'(<= h{number} wide)' for number in range(count))}"


def pairs_that_end(count: int) -> str:
    """Two relations that meet in one value, so that all their pairs agree, and hardly any goes on."""
    meet = "".join(f"(p a{number} h)(q h b{number})" for number in range(count))
    return f"(role a){meet}(r b0 c)(s c d)(<= (w ?x ?y) (p ?x ?h) (q ?h ?y) (r ?y ?z) (s ?z ?u))"


# Names of one byte that are told apart.
NAMES = [name for name in map(chr, range(33, 127)) if name not in '();"|?' and not name.isupper()]


def sixes_alike(numbers: dict[str, int], room: int, count: int) -> list[str]:
    """So many rows of six names whose hashes lie within this room: a hash is linear in the numbers of the names."""

    def halves(last: int) -> list[tuple[int, str]]:
        """Three names, and what they add to the hash of a row, of which so many names follow the last."""
        powers = [pow(FACTOR, last + behind, HASHES) for behind in (3, 2, 1)]
        threes = itertools.product(NAMES, repeat=3)
        return [(sum(numbers[name] * power for name, power in zip(three, powers)) % HASHES, " ".join(three)) for three in threes]

    behind = sorted(halves(0))
    sums = [total for total, _ in behind]
    alike: list[str] = []
    for total, three in halves(3):
        place = bisect.bisect_left(sums, -total % HASHES)
        while place < len(sums) and (sums[place] + total) % HASHES < room and len(alike) < count:
            alike.append(f"{three} {behind[place][1]}")
            place += 1
    return alike


def terms_alike(count: int) -> str:
    """Terms whose hashes begin alike, as numbers of names follow the text."""
    others = [name for name in NAMES if name not in "ap"]
    numbers = {"a": 1, "p": 2} | {name: number for number, name in enumerate(others, 3)}
    alike = [f"({six})" for six in sixes_alike(numbers, HASHES >> 19, count)]
    items = [alike[start : start + 280] for start in range(0, len(alike), 280)]
    return f"(role a)(p {' '.join(others)})" + "".join(f"(p {''.join(terms)})" for terms in items)


def rows_in_one_bucket(count: int) -> str:
    """Two relations that have the same rows of six values, all of which stand in one of as many buckets as there are rows."""
    numbers = {name: number for number, name in enumerate(NAMES)}
    alike = [f"(t {six})" for six in sixes_alike(numbers, HASHES // (2 * count), count)]
    width = 25
    rule = "?a ?b ?c ?d ?e ?f"
    text = f"(role white)(n {' '.join(NAMES)})"
    text += "".join(f"(r {''.join(alike[start : start + width])})" for start in range(0, count, width))
    for word, place in itertools.product("pq", range(width)):
        terms = [f"?{number}" for number in range(width)]
        terms[place] = f"(t {rule})"
        text += f"(<=({word} {rule})(r {' '.join(terms)}))"
    return text + f"(<=(meet ?a)(p {rule})(q {rule}))"


FAMILIES = [
    Family("dear in another order", "net", dear_in_another_order, (2, 4, 8)),
    Family("long body", "net", long_body, (1000, 2000, 4000)),
    Family("tables anew", "net", tables_anew, (5, 10, 20)),
    Family("ground rules", "net", ground_rules, (1000, 2000, 4000)),
    Family("places of variables", "net", places_of_variables, (6000, 12000, 24000)),
    Family("early tests", "net", early_tests, (2000, 4000, 8000)),
    Family("negated atoms", "net", negated_atoms, (500, 1000, 2000)),
    Family("same bodies", "net", same_bodies, (500, 1000, 2000)),
    Family("terms of each row", "net", terms_of_each_row, (225, 450, 900)),
    Family("names of two arities", "net", names_of_two_arities, (750, 1500, 3000)),
    Family("rows in another order", "net", rows_in_another_order, (100, 200, 400)),
    Family("chain of joins", "net", chain_of_joins, (1000, 2000, 4000)),
    Family("pairs that end", "net", pairs_that_end, (500, 1000, 2000)),
    Family("rows that all fail", "net", rows_that_all_fail, (16, 19, 23)),
    Family("terms alike", "net", terms_alike, (18000, 36000, 72000)),
    Family("rows in one bucket", "net", rows_in_one_bucket, (15000, 30000, 60000)),
    Family("alternatives of one item", "check", alternatives_of_one_item, (130000, 260000, 520000)),
    Family("many names", "check", many_names, (40000, 80000, 160000)),
    Family("bodies of alternatives", "check", bodies_of_alternatives, (1000, 2000, 4000)),
]
