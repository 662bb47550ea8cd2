"""The lines of the keys of a TOML document, by path, as in `router[2].prefix`."""
import re

from . import places  # sets where the independent program is found

import model as independent

HEADER = re.compile(r"\[(\[?)\s*([^\[\]]*?)\s*\]")
KEY = re.compile(r"[\s,{]*([A-Za-z0-9_-]+|\"[^\"\n]*\"|'[^'\n]*')\s*=")


def statements(text):
    """The statements of a document, each with its first line: headers, and keys with their values over any number of lines."""
    line, start, depth, parts = 1, 1, 0, []
    for token in independent.TOKEN.findall(text):
        if token[0] == "#":
            continue
        if "\n" in token and depth <= 0 and token in ("\n", "\r\n"):
            yield start, "".join(parts)
            parts, depth = [], 0
            line += 1
            start = line
            continue
        depth += (token in "[{") - (token in "]}") if len(token) == 1 else 0
        parts.append(token)
        line += token.count("\n")
    yield start, "".join(parts)


def lines_of(text):
    """The line of each key and each entry of an array of tables, by its path."""
    found, counts, table = {}, {}, ""
    for line, statement in statements(text):
        statement = statement.strip()
        header = HEADER.match(statement)
        if header:
            name = header.group(2).strip("\"'")
            if header.group(1):
                table = f"{name}[{counts.get(name, 0)}]"
                counts[name] = counts.get(name, 0) + 1
            else:
                table = name
            found.setdefault(table, line)
            continue
        key = KEY.match(statement)
        if key:
            path = ".".join(part for part in (table, key.group(1).strip("\"'")) if part)
            found.setdefault(path, line)
            found.update(inside(path, line, statement[key.end() :]))
    return found


def inside(path, line, value):
    """The lines of keys in inline tables of an array: `link = [{ a = "A" }, ..]`."""
    found, depth, entry = {}, 0, -1
    tokens = independent.TOKEN.findall(value)
    for at, token in enumerate(tokens):
        if depth == 2 and (token == "{" or token in ",{") or depth == 1 and token == "{":
            entry += depth == 1
            found.setdefault(f"{path}[{entry}]", line)
            rest = "".join(tokens[at + 1 : at + 60])
            key = KEY.match(rest)
            if key:
                found.setdefault(f"{path}[{entry}].{key.group(1)}", line + rest[: key.start(1)].count("\n"))
        depth += (token in "[{") - (token in "]}") if len(token) == 1 else 0
        line += token.count("\n")
    return found
