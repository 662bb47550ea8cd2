"""The positions of a domain's routers in a picture: as far from each other as there are links between them, as well as a plane
allows (the stress of a drawing, reduced step by step). The same domain always has the same layout."""
import math
from collections import deque

BOX = (0.95, 0.72)  # of a router, in units of a link
FAR = 3  # links beyond the longest path, for routers that no path joins


def hops_from(start, neighbors):
    hops, queue = {start: 0}, deque([start])
    while queue:
        a = queue.popleft()
        for b in neighbors[a]:
            if b not in hops:
                hops[b] = hops[a] + 1
                queue.append(b)
    return hops


def neighbors_without(domain, cut):
    """The neighbors of each router over the links of which no direction is among `cut`."""
    rows = [[end["peer_at"] for end in domain.ends(a)] for a in range(len(domain.routers))]
    return [[b for b in row if (a, b) not in cut and (b, a) not in cut] for a, row in enumerate(rows)]


def walk_order(neighbors):
    """The routers in depth-first order, so that rings come out as rings."""
    order, seen = [], set()
    for start in range(len(neighbors)):
        stack = [start]
        while stack:
            a = stack.pop()
            if a not in seen:
                seen.add(a)
                order.append(a)
                stack.extend(b for b in reversed(neighbors[a]) if b not in seen)
    return order


def on_circle(order):
    count = len(order)
    radius = count / (2 * math.pi)
    places = [None] * count
    for step, a in enumerate(order):
        turn = 2 * math.pi * step / count
        places[a] = (radius * math.cos(turn), radius * math.sin(turn))
    return places


def distances(neighbors):
    count = len(neighbors)
    rows = [hops_from(a, neighbors) for a in range(count)]
    longest = max(max(row.values()) for row in rows) + FAR
    return [[rows[a].get(b, longest) for b in range(count)] for a in range(count)]


def lessen(places, wanted, turns):
    """Moves each router to where the others would have it, by distance; the stress never rises."""
    count = len(places)
    weights = [[1.0 / (row[b] * row[b]) if a != b else 0.0 for b in range(count)] for a, row in enumerate(wanted)]
    totals = [sum(row) for row in weights]
    for _ in range(turns):
        places = [(x / total, y / total) for (x, y), total in zip(pulled(places, wanted, weights), totals)]
    return places


def pulled(places, wanted, weights):
    """For each router the weighted sum of the positions that the others ask for; each pair is visited once."""
    xs, ys = [x for x, _ in places], [y for _, y in places]
    sum_x, sum_y = [0.0] * len(places), [0.0] * len(places)
    for a, (xa, ya) in enumerate(places):
        to_x = to_y = 0.0
        for b, (xb, yb, far, weight) in enumerate(zip(xs[:a], ys, wanted[a], weights[a])):
            dx, dy = xa - xb, ya - yb
            pull = weight * far / (math.sqrt(dx * dx + dy * dy) or 1e-9)
            pull_x, pull_y = pull * dx, pull * dy
            to_x += weight * xb + pull_x
            to_y += weight * yb + pull_y
            sum_x[b] += weight * xa - pull_x
            sum_y[b] += weight * ya - pull_y
        sum_x[a] += to_x
        sum_y[a] += to_y
    return zip(sum_x, sum_y)


def stress(places, wanted):
    total = 0.0
    for a in range(len(places)):
        for b in range(a):
            apart = math.hypot(places[a][0] - places[b][0], places[a][1] - places[b][1])
            total += ((apart - wanted[a][b]) / wanted[a][b]) ** 2
    return total


def laid_flat(places):
    """Turned so that the two routers farthest apart are level, which suits a screen."""
    far = max(
        ((a, b) for a in range(len(places)) for b in range(a)),
        key=lambda pair: math.dist(places[pair[0]], places[pair[1]]),
        default=None,
    )
    if far is None:
        return places
    (ax, ay), (bx, by) = places[far[0]], places[far[1]]
    turn = -math.atan2(by - ay, bx - ax)
    return [(x * math.cos(turn) - y * math.sin(turn), x * math.sin(turn) + y * math.cos(turn)) for x, y in places]


def pushed_apart(places):
    """No two routers so close that their boxes overlap: such two move apart along the overlap's shorter side, each by half."""
    places = [list(place) for place in places]
    for _ in range(300):
        if not any([push(places[a], places[b]) for a, b in close_pairs(places)]):
            break
    return [tuple(place) for place in places]


def close_pairs(places):
    """The pairs that are less than a box apart horizontally."""
    order = sorted(range(len(places)), key=lambda a: (places[a][0], a))
    found = []
    for rank, a in enumerate(order):
        for b in order[rank + 1 :]:
            if places[b][0] - places[a][0] >= BOX[0]:
                break
            found.append((max(a, b), min(a, b)))
    return sorted(found)


def push(one, other):
    over_x = BOX[0] - abs(one[0] - other[0])
    over_y = BOX[1] - abs(one[1] - other[1])
    if over_x <= 1e-6 or over_y <= 1e-6:
        return False
    axis, over = (0, over_x) if over_x / BOX[0] < over_y / BOX[1] else (1, over_y)
    step = over / 2 if one[axis] >= other[axis] else -over / 2
    one[axis] += step
    other[axis] -= step
    return True


def place(domain):
    """A position for each router, in units of one link; the least coordinates are 0."""
    count = len(domain.routers)
    neighbors = neighbors_without(domain, ())
    if count == 1:
        return [(0.0, 0.0)]
    wanted, turns = distances(neighbors), 200 if count <= 60 else 40
    starts = (list(range(count)), walk_order(neighbors))
    drawings = [lessen(on_circle(order), wanted, turns) for order in starts]
    places = pushed_apart(laid_flat(min(drawings, key=lambda drawing: stress(drawing, wanted))))
    left, low = min(x for x, _ in places), min(y for _, y in places)
    return [(x - left, y - low) for x, y in places]
