"""The page of a design: the table, a picture of the worst case of each promise, and its replay in the player."""
import html
import os
import re

from common import capture, course, layout, playback, texts
from common.trouble import Trouble, replace_octets, write_octets

from . import judge, rounds, tell
from .share import ran

STYLE = """
body { font: 15px/1.5 sans-serif; color: #1b2733; max-width: 1100px; margin: 2em auto; padding: 0 1em; }
table { border-collapse: collapse; margin: 1em 0; }
th, td { text-align: left; padding: 0.25em 0.8em; border-bottom: 1px solid #d5dbe1; vertical-align: top; }
.holds { color: #2a9d4a; } .fails { color: #c9302c; font-weight: bold; }
svg { max-width: 100%; height: auto; border: 1px solid #e6e9ed; } pre { background: #f4f6f8; padding: 1em; overflow: auto; }
"""
KEY = (
    "<p>Links are colored by their load in each direction; dashed red links failed. Receivers are green, those affected red; an"
    " ingress has a double frame.</p>"
)
UNIT, MARGIN = (120, 84), 70  # pixels of a link, across and down
BOX = (92, 40)
GREEN, RED, GREY, PALE = "#2a9d4a", "#c9302c", "#9aa5b1", "#dfe4e9"
SHADES = ("#a9d3ec", "#6fb1d9", "#3f8cc0", "#1d5fa8", "#0b3a70")  # of loads, from the lowest to the highest
OVER = "#e0457b"  # above the load that is promised


class Picture:
    """The domain in one case: links colored by their loads, links and routers that failed, and receivers."""

    def __init__(self, findings, row, spots):
        self.design, self.row = findings.design, row
        self.case = self.design.cases[row.case]
        self.loads = judge.loads(findings, row.case)
        self.highest = max((load for load, _ in self.loads.values()), default=0)
        self.bound = self.design.promises.get("load_mbit", self.highest)
        right, low = max(x for x, _ in spots), max(y for _, y in spots)
        self.spots = [(MARGIN + x * UNIT[0], MARGIN + (low - y) * UNIT[1]) for x, y in spots]
        self.size = max(2 * MARGIN + right * UNIT[0], 760), 2 * MARGIN + low * UNIT[1]
        streams = [it for it in self.design.streams if row.stream in ("all", it.name)]
        self.ingresses = {place for it in streams for place in it.ingresses}
        self.receivers = {place for it in streams for place in it.receivers.values()}

    def svg(self):
        wide, high = (round(length) for length in self.size)
        size = f'viewBox="0 0 {wide} {high + 30}" width="{wide}"'
        parts = [f'<svg xmlns="http://www.w3.org/2000/svg" {size} font-family="sans-serif">']
        for a, b, _, _ in self.design.domain.links():
            parts += [self.line(a, b), self.line(b, a)] if (a, b) not in self.case.cut() else [self.cut_line(a, b)]
        parts += [self.box(router) for router in self.design.domain.routers]
        return "\n".join([*parts, self.legend(high), "</svg>"])

    def shade(self, load):
        if load > self.bound + 1e-9:
            return OVER
        step = int(load / self.highest * len(SHADES)) if self.highest else 0
        return SHADES[min(step, len(SHADES) - 1)]

    def line(self, a, b):
        """One direction of a link, a little to its left."""
        load, unicast = self.loads.get((a, b), (0, 0))
        unit = tell.unit_of(self.design)
        title = f"{self.design.way_name(a, b)}: {tell.plain(float(load))} {unit}, by unicast {tell.plain(float(unicast))}"
        colour, width = (self.shade(load), 3) if load else (PALE, 1.5)
        return self.drawn(a, b, 2.2, f'stroke="{colour}" stroke-width="{width}"', title)

    def cut_line(self, a, b):
        title = f"{self.design.domain.name(a)}–{self.design.domain.name(b)}: failed"
        return self.drawn(a, b, 0, f'stroke="{RED}" stroke-width="2.5" stroke-dasharray="7 5"', title)

    def drawn(self, a, b, aside, style, title):
        (ax, ay), (bx, by) = self.spots[a], self.spots[b]
        length = max(1, ((bx - ax) ** 2 + (by - ay) ** 2) ** 0.5)
        dx, dy = aside * (by - ay) / length, -aside * (bx - ax) / length
        where = f'x1="{ax + dx:.1f}" y1="{ay + dy:.1f}" x2="{bx + dx:.1f}" y2="{by + dy:.1f}"'
        return f"<line {where} {style}><title>{html.escape(title)}</title></line>"

    def box(self, router):
        x, y = self.spots[router.place]
        colour, fill, dashes = "#33414e", "#ffffff", ""
        if router.plain:
            colour, fill, dashes = GREY, "#eef0f3", ' stroke-dasharray="4 3"'
        if router.place in self.receivers:
            colour, fill = GREEN, "#dff3e4"
        if router.name in self.row.affected or router.place in self.case.routers:
            colour, fill = RED, "#fbe1e0"
        wide, high = BOX
        corner = f'x="{x - wide / 2:.1f}" y="{y - high / 2:.1f}" width="{wide}" height="{high}"'
        parts = [f'<rect {corner} rx="5" fill="{fill}" stroke="{colour}" stroke-width="2"{dashes}/>']
        if router.place in self.ingresses:
            inner = f'x="{x - wide / 2 + 4:.1f}" y="{y - high / 2 + 4:.1f}" width="{wide - 8}" height="{high - 8}"'
            parts.append(f'<rect {inner} rx="3" fill="none" stroke="{colour}"/>')
        parts.append(f'<text x="{x:.1f}" y="{y + 4:.1f}" font-size="12" text-anchor="middle">{html.escape(router.name)}</text>')
        return "".join(parts)

    def legend(self, high):
        unit, entries = tell.unit_of(self.design), []
        for step, colour in enumerate(SHADES):
            entries.append((colour, f"≤ {tell.plain(round(self.highest * (step + 1) / len(SHADES), 2))} {unit}"))
        if self.highest > self.bound:
            entries.append((OVER, f"> {tell.plain(self.bound)} {unit}"))
        parts = []
        for place, (colour, text) in enumerate(entries):
            x = MARGIN + 120 * place
            parts.append(f'<rect x="{x}" y="{high}" width="14" height="10" fill="{colour}"/>')
            parts.append(f'<text x="{x + 19}" y="{high + 10}" font-size="11">{text}</text>')
        return "".join(parts)


# Replays


class Replays:
    """The replays of single cases, each once: files for the other tools, and the player's page."""

    def __init__(self, share, folder):
        self.share, self.design, self.folder, self.known = share, share.design, folder, {}

    def path(self, row):
        """The page of the replay of a row's worst case."""
        key = row.case, row.stream
        if key not in self.known:
            name = re.sub(r"[^A-Za-z0-9_+-]+", "-", f"{self.design.cases[row.case].name}-{row.stream}")
            self.known[key] = self.made(row, os.path.join(self.folder, f"{len(self.known) + 1}-{name[:80]}"))
        return self.known[key]

    def made(self, row, folder):
        os.makedirs(folder, exist_ok=True)
        lines = rounds.replay_lines(self.share, self.design.cases[row.case], row.stream)
        report, status = ran(self.share.program, "replay", folder, self.design.domain_text, lines, self.share.limit)
        if status:
            raise Trouble(f"{folder}: status {status}, {report.decode().splitlines()[-1:]}")
        write_octets(os.path.join(folder, "report"), report)
        told = texts.report_of(folder, report.decode())
        found = course.Course(self.design.domain, lines, told, capture.read_capture(os.path.join(folder, "frames")))
        title = f"{os.path.basename(self.design.path)}: {self.design.cases[row.case].name}"
        path = os.path.join(folder, "replay.html")
        write_octets(path, playback.page(title, playback.page_data(self.design.domain, found)).encode())
        return f"{path}#line={first_of_failure(lines)}"


def first_of_failure(lines):
    """The line at which the player begins: where a failure is seen, or the end of a replay without one."""
    return next((number for number, line in enumerate(lines, 1) if line.startswith("down ")), len(lines))


# The page


def row_line(design, row, number):
    cells = tell.row_cells(design, row)
    verdict = "holds" if row.holds else "fails"
    cells = [html.escape(cell) for cell in cells]
    cells[0] = f'<a href="#p{number}">{cells[0]}</a>' if tell.has_case(row) else cells[0]
    cells[4] = f'<span class="{verdict}">{cells[4]}</span>'
    return "<tr>" + "".join(f"<td>{cell}</td>" for cell in cells) + "</tr>"


def section(findings, row, number, spots, link):
    """A promise with the picture of its worst case."""
    design = findings.design
    title = f"{tell.NAMES[row.promise]}, {row.stream}"
    verdict = "It holds" if row.holds else f"It fails in {len(row.broken)} of {row.tried} cases"
    case = design.cases[row.case]
    text = f"Promised: {tell.bound_text(row)}. {verdict}. Worst: {tell.worst_text(row)}, {case_text(case)}; "
    text += tell.listed(row.affected, 12) + "."
    cut = judge.parts(design, case)
    if cut:
        text += f" This leaves the domain in parts: {tell.listed([design.domain.name(place) for place in cut], 12)} cut off."
    head = f'<h2 id="p{number}">{html.escape(title)}</h2><p>{html.escape(text)}</p>'
    return f'{head}<p><a href="{html.escape(link)}">Replay of this case</a></p>{Picture(findings, row, spots).svg()}'


def case_text(case):
    return "without a failure" if case.kind == "none" else f"where {case.name} fails"


def page_text(findings, rows, link_of):
    design, spots = findings.design, layout.place(findings.design.domain)
    name = html.escape(os.path.basename(design.path))
    size = "<br>".join(map(html.escape, tell.summary(design, rows).splitlines()))
    head = "".join(f"<th>{cell}</th>" for cell in tell.HEAD)
    lines = "".join(row_line(design, row, number) for number, row in enumerate(rows))
    shown = [(number, row) for number, row in enumerate(rows) if tell.has_case(row)]
    sections = "".join(section(findings, row, number, spots, link_of(row)) for number, row in shown)
    rest = "".join(f"<pre>{html.escape(part)}</pre>" for part in tell.sections(findings))
    return (
        f'<!DOCTYPE html><html lang="en"><head><meta charset="utf-8"><title>{name}</title><style>{STYLE}</style></head><body>'
        f"<h1>{name}</h1><p>{size}</p><table><tr>{head}</tr>{lines}</table>{rest}{KEY}{sections}"
        "</body></html>\n"
    )


def write(path, findings, rows, share, inputs):
    """Writes the page, and beside it a folder with the replays."""
    folder = os.path.splitext(path)[0] + "-replays"
    write_octets(path, b"", inputs)  # it can be written, before replays take time
    replays = Replays(share, folder)
    link_of = lambda row: os.path.relpath(replays.path(row), os.path.dirname(path) or ".")
    replace_octets(path, page_text(findings, rows, link_of).encode())
