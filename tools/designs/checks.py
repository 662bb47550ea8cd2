"""Values of a design file: each check returns what the tool uses, or raises Wrong with what is expected."""

REQUIRED = object()


class Wrong(Exception):
    """What is wrong with a value, and at which key below the one that is checked."""

    def __init__(self, why, key=""):
        super().__init__(why)
        self.why, self.key = why, key


def is_number(value):
    return isinstance(value, (int, float)) and not isinstance(value, bool)


def whole(least, most):
    def check(value):
        if not isinstance(value, int) or isinstance(value, bool) or not least <= value <= most:
            raise Wrong(f"expected a whole number from {least} to {most}")
        return value

    return check


def decimal(least, most):
    def check(value):
        if not is_number(value) or not least <= value <= most:
            raise Wrong(f"expected a number from {least} to {most}")
        return float(value)

    return check


def flag(value):
    if not isinstance(value, bool):
        raise Wrong("expected true or false")
    return value


def text(value):
    if not isinstance(value, str) or not value.strip():
        raise Wrong("expected a text in quotes")
    return value


def one_of(values):
    def check(value):
        if value not in values or isinstance(value, bool):
            raise Wrong("expected " + ", ".join(map(str, values[:-1])) + f" or {values[-1]}")
        return value

    return check


def each(check, least=1, most=None):
    """A list of values that pass a check."""

    def check_all(value):
        if not isinstance(value, list) or len(value) < least or most is not None and len(value) > most:
            raise Wrong(f"expected a list of {least}{' or more' if most is None else ''} values")
        found = []
        for place, item in enumerate(value):
            try:
                found.append(check(item))
            except Wrong as wrong:
                raise Wrong(f"{shown(item)}: {wrong.why}", f"[{place}]{wrong.key}")
        return found

    return check_all


def shown(value):
    return f'"{value}"' if isinstance(value, str) else str(value)


def table(keys):
    """A table with keys, each a check and a default; REQUIRED where it must be there."""

    def check(value):
        if not isinstance(value, dict):
            raise Wrong("expected a table")
        for key in value:
            if key not in keys:
                raise Wrong(f"unknown key; known are {', '.join(keys)}", f".{key}")
        found = {}
        for key, (test, default) in keys.items():
            if key not in value and default is REQUIRED:
                raise Wrong(f"the key {key} is missing")
            found[key] = default if key not in value else at(key, test, value[key])
        return found

    return check


def at(key, test, value):
    try:
        return test(value)
    except Wrong as wrong:
        raise Wrong(wrong.why, f".{key}{wrong.key}")


def router_of(it):
    """A router by its name, as its index."""

    def check(value):
        if value not in it.place:
            raise Wrong("no router of the domain has that name")
        return it.place[value]

    return check


def link_of(it):
    """A link as `A/B`, as the indexes of its routers in the order of the file."""
    links = {frozenset((a, b)): (a, b) for a, b, _, _ in it.links()}

    def check(value):
        names = value.split("/") if isinstance(value, str) else []
        if len(names) != 2:
            raise Wrong('expected a link as "A/B"')
        found = links.get(frozenset(it.place.get(name) for name in names))
        if found is None:
            raise Wrong("no link joins routers of these names")
        return found

    return check


def all_or(check):
    """True for all, false for none, or a list of some."""

    def either(value):
        if isinstance(value, bool):
            return value
        if not isinstance(value, list):
            raise Wrong("expected true, false or a list")
        return each(check)(value)

    return either
