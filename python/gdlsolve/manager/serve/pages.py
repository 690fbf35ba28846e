"""The pages of the match server, as HTML without scripts. Whatever is put into one is escaped, and no longer than it may be."""

from __future__ import annotations

from collections.abc import Iterable, Mapping, Sequence
from datetime import datetime, timezone
from html import escape
from typing import Any

from gdlsolve.manager.archive import Game, Stage
from gdlsolve.manager.record import Record
from gdlsolve.manager.serve.entry import LONGEST_ADDRESS, LONGEST_NAME, LONGEST_TOKEN
from gdlsolve.manager.serve.store import Listed

# No text in a page is longer: a move, or what a player has answered.
LONGEST = 300
NAVIGATION = (("/", "Ratings"), ("/matches", "Matches"), ("/games", "Games"), ("/players", "Sign up"))
PAGE = """<!doctype html>
<html lang="en">
<meta charset="utf-8">
<meta name="viewport" content="width=device-width, initial-scale=1">
<title>{title}</title>
<link rel="stylesheet" href="/match.css">
<header><h1>{title}</h1><nav>{links}</nav></header>
<main>
{body}
</main>
"""
FORM = """<section><h2>{head}</h2><p class="quiet">{about}</p>
<form method="post" action="{action}">
{fields}
<button>{does}</button>
</form></section>"""
NAME = ("name", "Name", LONGEST_NAME, "required")
ADDRESS = ("address", "Address, as http://127.0.0.1:9147", LONGEST_ADDRESS, "required")
SIGN_UP = (NAME, ADDRESS, ("token", "Token, of one who was here before", LONGEST_TOKEN, ""))
LEAVE = (NAME, ("token", "Token", LONGEST_TOKEN, "required"))


class Markup(str):
    """A text that is HTML already."""


def html(text: object) -> Markup:
    """A text as HTML shows it."""
    if isinstance(text, Markup):
        return text
    told = str(text)
    return Markup(escape(told if len(told) <= LONGEST else f"{told[:LONGEST]}…"))


def page(title: str, *parts: str) -> bytes:
    """A page."""
    links = " ".join(f'<a href="{place}">{name}</a>' for place, name in NAVIGATION)
    return PAGE.format(title=html(title), links=links, body="\n".join(parts)).encode()


def section(head: str, *parts: str) -> Markup:
    """A part of a page."""
    return Markup(f"<section><h2>{html(head)}</h2>{''.join(parts)}</section>")


def paragraph(text: object, kind: str = "") -> Markup:
    """A paragraph."""
    return Markup(f'<p class="{kind}">{html(text)}</p>' if kind else f"<p>{html(text)}</p>")


def link(place: str, text: object) -> Markup:
    """A link to a place of the server."""
    return Markup(f'<a href="{escape(place)}">{html(text)}</a>')


def cell(value: object, tag: str = "td") -> str:
    """A cell of a table. Numbers stand at the right."""
    kind = ' class="number"' if isinstance(value, (int, float)) else ""
    return f"<{tag}{kind}>{html(value)}</{tag}>"


def table(head: Sequence[str], rows: Iterable[Sequence[object]]) -> Markup:
    """A table, which scrolls where the screen is narrow."""
    top = "".join(cell(each, "th") for each in head)
    body = "".join(f"<tr>{''.join(map(cell, row))}</tr>\n" for row in rows)
    return Markup(f'<div class="wide"><table><thead><tr>{top}</tr></thead><tbody>\n{body}</tbody></table></div>')


def date(milliseconds: int) -> str:
    """A time for people."""
    return datetime.fromtimestamp(milliseconds / 1000, timezone.utc).strftime("%Y-%m-%d %H:%M")


def presence(player: Mapping[str, Any]) -> Markup:
    """Whether a player is here."""
    if not player["here"]:
        return Markup('<span class="quiet">left</span>')
    return Markup("here") if player["available"] else Markup('<span class="bad">not available</span>')


def rating(player: Mapping[str, Any]) -> tuple[object, object]:
    """The rating of a player and its error, where it has one."""
    return ("-", "-") if player["rating"] is None else (round(player["rating"]), f"± {player['error']:.0f}")


def seats(listed: Listed) -> str:
    """Who has played what, with which goal."""
    return ", ".join(f"{player} as {role}{'' if goal is None else f' {goal}'}" for role, player, goal in listed.entry.seats)


def state(listed: Listed) -> Markup:
    """How a match stands, and whether it counts."""
    stage = listed.entry.stage
    if stage is not Stage.PLAYED:
        return html(stage.value)
    if listed.fault is None:
        return html("played, not replayed yet")
    return html("counts") if not listed.fault else Markup('<span class="bad">refused</span>')


def matches_table(matches: Sequence[Listed]) -> Markup:
    """A list of matches."""
    return table(("Match", "Game", "Players", "State", "Failed moves", "Begun, UTC"), map(match_row, matches))


def match_row(listed: Listed) -> Sequence[object]:
    """A match for a list."""
    entry = listed.entry
    return link(f"/matches/{entry.number}", entry.number), entry.game, seats(listed), state(listed), entry.failed or "", date(entry.begun)


def ratings_page(players: Sequence[Mapping[str, Any]], last: Sequence[Listed]) -> bytes:
    """The ratings, and the last matches."""
    rows = [(each["name"], *rating(each), each["matches"], presence(each)) for each in players]
    told = table(("Player", "Rating", "Error", "Matches", ""), rows) if rows else paragraph("Nobody has signed up yet.")
    latest = matches_table(last) if last else paragraph("No match was begun yet.")
    return page("Match server", section("Ratings", told), section("Last matches", latest))


def matches_page(matches: Sequence[Listed], most: int) -> bytes:
    """A list of matches, with a link to those before."""
    older = paragraph(link(f"/matches?before={matches[-1].entry.number}", "Earlier matches")) if len(matches) == most else ""
    return page("Matches", section("Matches", matches_table(matches) if matches else paragraph("There are none.")), older)


def games_page(games: Sequence[Game], played: Mapping[str, int]) -> bytes:
    """The games, with how often each was played."""
    rows = [(game.name, len(game.roles), played.get(game.sum, 0)) for game in games]
    return page("Games", section("Games", table(("Game", "Roles", "Matches played"), rows)))


def match_page(listed: Listed, record: Record | None, unready: Sequence[str]) -> bytes:
    """A match, with its moves where it is over."""
    entry = listed.entry
    head = paragraph(Markup(f"{html(entry.game)}, begun {html(date(entry.begun))} UTC: {state(listed)}."))
    why = paragraph(f"It does not count: {listed.fault}", "bad") if listed.fault else ""
    rows = [(role, player, "-" if goal is None else goal, why_not) for (role, player, goal), why_not in zip(entry.seats, unready)]
    parts = [head, why, table(("Role", "Player", "Goal", "Not ready"), rows)]
    if record is not None:
        save = Markup(f'<a href="/matches/{entry.number}.json" download="match-{entry.number}.json">Save the record</a>')
        parts.append(paragraph(Markup(f"{save}. The page of <code>gdlsolve-page</code> steps through it.")))
    return page(f"Match {entry.number}", section(f"Match {entry.number}", *parts), moves(record) if record else "")


def moves(record: Record) -> Markup:
    """The moves of a match, each with what was wrong with the player's own."""
    rows = [
        (number, *(move_cell(*each) for each in zip(turn, errors)))
        for number, (turn, errors) in enumerate(zip(record.moves, record.errors), 1)
    ]
    return section("Moves", table(("Turn", *record.roles), rows))


def move_cell(move: str, error: str) -> Markup:
    """A move, and what was wrong with the player's own where another was played in its place."""
    return Markup(f"<code>{html(move)}</code>" + (f' <span class="bad">in place of its own: {html(error)}</span>' if error else ""))


def form(head: str, about: str, action: str, does: str, fields: Iterable[tuple[str, str, int, str]]) -> Markup:
    """A form."""
    told = "\n".join(
        f'<label>{label}<input name="{name}" maxlength="{most}" autocomplete="off" {more}></label>' for name, label, most, more in fields
    )
    return Markup(FORM.format(head=head, about=about, action=action, does=does, fields=told))


def players_page() -> bytes:
    """The forms for signing up and leaving."""
    comes = "A player of the protocol of general game playing, as gdlsolve-player is one. It is asked INFO, and has to answer."
    goes = "A match that goes on is played to its end."
    return page("Sign up", form("Sign up", comes, "/players", "Sign up", SIGN_UP), form("Leave", goes, "/leave", "Leave", LEAVE))


def taken_page(name: str, token: str) -> bytes:
    """What is told to one who has signed up."""
    told = Markup(f"{html(name)} has signed up. Its token is <code>{html(token)}</code>.")
    keep = "Keep it: it is not told again, and who has it may leave or come again."
    return page("Signed up", section("Signed up", paragraph(told), paragraph(keep)))


def told_page(title: str, text: str, kind: str = "") -> bytes:
    """A page that says one thing."""
    return page(title, section(title, paragraph(text, kind)))
