"""Man pages: of the programs from the user guide, of the tools from their --help."""
import re

from common.front import EXAMPLES
from common.names import installed

WIDTH = 70  # columns of a table
SHORT = 18  # columns of a cell that isn't wrapped
SPECIAL = {"\\": "\\e", "-": "\\-", "'": "\\(aq", "`": "\\(ga", "^": "\\(ha", "~": "\\(ti"}
ITEM = re.compile(r"( *)(?:- |\d+\. )(.*)")
LINK = re.compile(r"!?\[([^\[\]]*)\]\([^()\s]*\)")


# ---- text


def literal(text):
    """A text as it is, also where a line begins."""
    text = "".join(SPECIAL.get(it, it) for it in text)
    return "\\&" + text if text.startswith((".", "\\(aq")) else text


def prose(text):
    """A line of Markdown: code and what is stressed in bold, links as their text."""
    parts = re.split(r"(`+)(.+?)\1", LINK.sub(r"\1", text))  # prose, quotes, code, prose, ..
    out = []
    for at in range(0, len(parts), 3):
        plain = parts[at].replace("\\", "\\e")
        out.append(re.sub(r"\*\*([^*]+)\*\*", r"\\fB\1\\fP", plain))
        if at + 2 < len(parts):
            out.append(f"\\fB{literal(parts[at + 2].strip())}\\fP")
    text = "".join(out)
    return "\\&" + text if text.startswith((".", "'")) else text


def shown_width(text):
    return len(re.sub(r"\\f.|\\&|\\\(..", "", text))


def column_widths(rows):
    """The width of each column whose cells are wrapped: its longest word, and a share of the room; None for a short column."""
    columns = [[shown_width(cell) for cell in column] for column in zip(*rows)]
    words = [max(shown_width(word) for cell in column for word in cell.split(" ")) for column in zip(*rows)]
    is_short = [max(column) <= SHORT for column in columns]
    used = sum(3 + (max(column) if short else word) for column, word, short in zip(columns, words, is_short))
    share = max(0, WIDTH - used) // max(1, is_short.count(False))
    return [None if short else word + share for word, short in zip(words, is_short)]


def heading(kind, text):
    text = re.sub(r"`", "", text)
    return f'.{kind} "{literal(text.upper() if kind == "SH" else text)}"'


# ---- blocks of Markdown


def table(lines):
    """A table: two columns as a list of tags, more by tbl."""
    rows = [[prose(cell.strip()) for cell in re.split(r"(?<!\\)\|", line.strip().strip("|"))] for line in lines]
    titles, rows = rows[0], rows[2:]
    if len(titles) == 2:
        return [line for tag, text in rows for line in (".TP", tag, text)]
    widths = column_widths([titles, *rows])
    formats = " ".join("l" if width is None else f"lw({width}n)" for width in widths)
    out = [".TS", "tab(\x1f);", " ".join("lB" for _ in titles), formats + "."]
    for row in [titles, *rows]:
        out.append("\x1f".join(f"T{{\n{cell}\nT}}" if width and cell else cell for cell, width in zip(row, widths)))
    return [".PP", *out, ".TE", ".PP"]


def code(lines):
    return [".PP", ".RS 4", ".nf", *(literal(line) for line in lines), ".fi", ".RE", ".PP"]


def item(lines, at):
    """An item of a list with what is indented below it; and the next line."""
    space, text = ITEM.match(lines[at]).groups()
    mark = lines[at][len(space) :].split(" ")[0]
    inner, at, margin = [text], at + 1, len(space) + len(mark) + 1
    while at < len(lines) and (not lines[at].strip() or lines[at].startswith(" " * margin)):
        inner.append(lines[at][margin:])
        at += 1
    body = [line for line in blocks(inner) if line]
    if body and body[0] == ".PP":
        body = body[1:]
    return [".IP \\(bu 2" if mark == "-" else f".IP {mark} 4", *body], at


def blocks(lines):
    """The lines of a page for lines of Markdown."""
    out, at = [], 0
    while at < len(lines):
        line, end = lines[at], at + 1
        if line.startswith("```"):
            while not lines[end].startswith("```"):
                end += 1
            out, end = out + code(lines[at + 1 : end]), end + 1
        elif line.startswith("|"):
            while end < len(lines) and lines[end].startswith("|"):
                end += 1
            out += table(lines[at:end])
        elif line.startswith("#"):
            level, text = line.split(" ", 1)
            out.append(heading("SH" if level == "##" else "SS", text))
        elif ITEM.match(line):
            made, end = item(lines, at)
            out += made
        elif line.strip() and not line.startswith("!["):
            out += [".PP", prose(line)]
        at = end
    return out


def sections(guide):
    """The guide's parts by their headings of level 2, in order; what comes before the first has the heading None."""
    found, is_code = {None: []}, False
    for line in guide.splitlines():
        is_code ^= line.startswith("```")
        if line.startswith("## ") and not is_code:
            found[line[3:]] = []
        elif not line.startswith("# ") or is_code:
            found[list(found)[-1]].append(line)
    return found


def part(lines, begin):
    """The lines under the first heading of level 3 that begins with this text."""
    first = next(at for at, line in enumerate(lines) if line.startswith(begin))
    rest = lines[first + 1 :]
    return rest[: next((at for at, line in enumerate(rest) if line.startswith("### ")), len(rest))]


# ---- pages


def page(name, summary, version, date, lines):
    head = ["'\\\" t", f'.TH {literal(name.upper())} 1 "{date}" "mastdamson {version}" "User commands"']
    head += [".nh", ".ad l", ".SH NAME", f"{literal(name)} \\- {literal(summary)}"]
    return "\n".join([*head, *lines]) + "\n"


def commands_of(intro):
    """The arguments of each command, as the table before the first section has them."""
    return [re.match(r"\| `([^`]+)`", line)[1] for line in intro if line.startswith("| `")]


def program_page(guide, version, date, tools):
    """bier_domain(1): a section for each command, the domain file, exit statuses, files and examples."""
    found = sections(installed(guide))
    intro = found[None]
    out = [".SH SYNOPSIS"]
    for words in commands_of(intro):
        command, *files = words.split()
        out += [f".B bier_domain {command}", "".join(f"\\fI{it}\\fP " for it in files).strip(), ".br"]
    out += [".SH DESCRIPTION", *blocks(intro)]
    is_command = [name for name in found if name and name.startswith("`")]
    for name in [*is_command, "The domain file"]:
        out += [heading("SH", name), *blocks(found[name])]
    out += [".SH EXIT STATUS", *blocks(found["Exit statuses"])]
    out += [".SH FILES", *blocks(part(found["Installing"], "### What is installed"))]
    out += [".SH EXAMPLES", *code(line.strip() for line in installed(EXAMPLES).splitlines()[1:])]
    out += ["from the folder \\fB/usr/share/doc/mastdamson/examples\\fP."]
    return page("bier_domain", "proved replay of BIER multicast domains", version, date, [*out, *see_also(["isis_dump", "live_router", "show_router", *tools])])


def see_also(names):
    ends = [","] * (len(names) - 1) + [""]
    return [".SH SEE ALSO", *(f".BR {literal(name)} (1){end}" for name, end in zip(names, ends))]


def dump_page(guide, version, date):
    """isis_dump(1), from its part of the guide's section on tools."""
    text = blocks(part(sections(installed(guide))["The tools"], "### `isis_dump`"))
    out = [".SH SYNOPSIS", ".B isis_dump", "< \\fICAPTURE\\fP", ".SH DESCRIPTION", *text]
    return page("isis_dump", "prints the IS-IS frames of a capture", version, date, [*out, *see_also(["bier_domain"])])


def look_page(guide, version, date):
    """show_router(1), from its part of the same section."""
    text = part(sections(installed(guide))["The tools"], "### `show_router`")
    out = [".SH SYNOPSIS"]
    for words in [*commands_of(text)[:2], "follow CONF SCHEDULE"]:
        command, *files = words.split()
        out += [f".B show_router {command}", "".join(f"\\fI{it}\\fP " for it in files).strip(), ".br"]
    out += [".SH DESCRIPTION", *blocks(text)]
    return page("show_router", "looks into a router of a replay or on a capture", version, date, [*out, *see_also(["bier_domain"])])


def live_page(guide, version, date):
    """live_router(1), from the part of the same section on the tool that runs it."""
    out = [".SH SYNOPSIS"]
    for words in ("", "hello "):
        out += [f".B live_router {words}".strip(), "\\fICONF\\fP \\fIROUTER\\fP \\fISTREAM\\fP \\fIFRAMES\\fP", ".br"]
    out += [".SH DESCRIPTION", *blocks(part(sections(installed(guide))["The tools"], "### `mastdamson-live`"))]
    return page("live_router", "runs a router on a live stream, or its hellos", version, date, [*out, *see_also(["bier_domain", "mastdamson-live"])])


def options(lines):
    """The options or arguments of a part of --help."""
    out = []
    for line in lines:
        found = re.match(r"  (\S.*?)(?:  +(\S.*))?$", line)
        if found:
            out += [".TP", f"\\fB{literal(found[1])}\\fP", literal(found[2] or "")]
        elif line.strip():
            out.append(literal(line.strip()))
    return [line for line in out if line]


def tool_page(name, help_text, version, date):
    """A tool's page from its --help, which was asked for lines without end."""
    parts = re.split(r"\n\n(?=\S)", help_text.strip())
    usage = parts[0].removeprefix("usage: ").removeprefix(name).strip()
    texts, out = [], [".SH SYNOPSIS", f".B {literal(name)}", literal(usage)]
    for it in parts[1:]:
        first, *rest = it.splitlines()
        if first.startswith("example"):
            lines = [first.partition(":")[2], *rest]
            out += [".SH EXAMPLES", *code(line.strip() for line in lines if line.strip())]
        elif first.endswith(":") and rest and rest[0].startswith("  "):
            out += [heading("SH", first[:-1].replace("positional ", "")), *options(rest)]
        else:
            texts += [".PP", *(literal(line) for line in it.splitlines())]
    summary = parts[1].splitlines()[0].rstrip(".")
    description = [".SH DESCRIPTION", *texts]
    at = next((at for at, line in enumerate(out) if line.startswith('.SH "')), len(out))
    out[at:at] = description
    return page(name, summary[0].lower() + summary[1:], version, date, [*out, *see_also(["bier_domain"])])
