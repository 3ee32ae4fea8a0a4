"""Pictures of a store and of its trie, as SVG text made from plain data.

Each picture stands on a card of its own, so it can be read on a light page and on a dark one. It brings no style sheet:
in a notebook that would restyle the page around it. It fits a page, however much the store holds: what has no place is
counted.
"""

from __future__ import annotations

from base64 import b64encode
from collections import Counter
from collections.abc import Iterable, Iterator, Sequence
from html import escape

from palhavento.layout import Bucket, Cell, Entry, Side, Trie

CARD, EDGE, HAIR, TEXT, QUIET = "#ffffff", "#c3cad2", "#e3e7ec", "#1f2328", "#59636e"
CELL_FILL, CELL_EDGE = "#dceafb", "#2f6db5"
LEAF_FILL, LEAF_EDGE = "#fdf0cf", "#a8740f"
PART_FILL, PART_EDGE = "#eef1f5", "#8a949e"
LOAD, SPLITS, FULL, ROOM = "#2f6db5", "#d98a1f", "#b3261e", "#dfe6ee"
VALUE = "#2f6db5"

MONO = "DejaVu Sans Mono, Menlo, Consolas, monospace"
SANS = "DejaVu Sans, Helvetica, Arial, sans-serif"
# The advance of one digit, as a part of the font's size, in any of the fonts of MONO.
ADVANCE = 0.61
MARGIN = 20
BLANK = "␣"
# The most that a trie has: rule R5.1 of docs/RULES.md.
MOST_STRINGS = 256


def _shown(digits: str) -> str:
    """Digits with each blank visible."""
    return digits.replace(" ", BLANK)


def _counted(number: int, one: str, many: str) -> str:
    return f"{number or 'no'} {one if number == 1 else many}"


def _wide(digits: int, size: float) -> float:
    """How wide so many digits are."""
    return digits * ADVANCE * size


def _text(x: float, y: float, content: str, *, size: float = 13, font: str = MONO, fill: str = TEXT,
          anchor: str = "start", weight: str = "normal", turned: bool = False) -> str:
    """A text; what the picture's own element says of all texts is not said again."""
    said = f'x="{x:g}" y="{y:g}" font-size="{size:g}"'
    for name, value, usual in (("font-family", font, MONO), ("fill", fill, TEXT), ("text-anchor", anchor, "start"),
                               ("font-weight", weight, "normal")):
        if value != usual:
            said += f' {name}="{value}"'
    if turned:
        said += f' transform="rotate(90 {x:g} {y:g})"'
    return f"<text {said}>{escape(content)}</text>"


def _box(x: float, y: float, width: float, height: float, fill: str, edge: str = "none", round_: float = 3,
         more: str = "") -> str:
    return (f'<rect x="{x:g}" y="{y:g}" width="{width:g}" height="{height:g}" rx="{round_:g}" fill="{fill}" '
            f'stroke="{edge}"{more}/>')


def _line(x1: float, y1: float, x2: float, y2: float, edge: str = EDGE) -> str:
    return f'<line x1="{x1:g}" y1="{y1:g}" x2="{x2:g}" y2="{y2:g}" stroke="{edge}"/>'


def _group(kind: str, title: str, parts: Sequence[str]) -> str:
    """One thing of the picture: its class says what it is, its title is shown where the pointer rests on it."""
    return f'<g class="{kind}"><title>{escape(title)}</title>{"".join(parts)}</g>'


class Picture(str):
    """SVG text, to be written to a file; a notebook draws it, and says in one line what it is where it cannot.

    >>> picture = Picture("<svg/>", "nine names")
    >>> picture, picture[:4], picture._repr_svg_()
    (<Picture: nine names>, '<svg', '<svg/>')
    >>> picture._repr_html_()
    '<img alt="nine names" src="data:image/svg+xml;base64,PHN2Zy8+">'
    """

    title: str

    def __new__(cls, text: str, title: str) -> Picture:
        picture = super().__new__(cls, text)
        picture.title = title
        return picture

    def __repr__(self) -> str:
        return f"<Picture: {self.title}>"

    def __reduce__(self) -> tuple[type[Picture], tuple[str, str]]:
        return Picture, (str(self), self.title)

    def _repr_svg_(self) -> str:
        return str(self)

    def _repr_html_(self) -> str:
        """As an image, for the exports to HTML that take an SVG apart."""
        return f'<img alt="{escape(self.title)}" src="data:image/svg+xml;base64,{b64encode(self.encode()).decode()}">'


def _picture(width: float, height: float, title: str, parts: Iterable[str]) -> Picture:
    card = _box(0.5, 0.5, width - 1, height - 1, CARD, EDGE, 8)
    body = "\n".join([card, *parts])
    text = (f'<svg xmlns="http://www.w3.org/2000/svg" width="{width:g}" height="{height:g}" '
            f'viewBox="0 0 {width:g} {height:g}" font-family="{MONO}" fill="{TEXT}" role="img">\n'
            f"<title>{escape(title)}</title>\n{body}\n</svg>\n")
    return Picture(text, title)


def _notes(y: float, notes: Sequence[str]) -> tuple[list[str], float]:
    """The lines under a picture, and where the card ends."""
    lines = [_text(MARGIN, y + 16 * place, note, size=11, font=SANS, fill=QUIET) for place, note in enumerate(notes)]
    return lines, y + 16 * (len(notes) - 1) + MARGIN


# The store: what it holds, bucket by bucket, with the bounds between the buckets, and what it has room for.

NARROWEST, WIDEST = 540, 960
# Names and values are a little smaller where there are many.
NAME, SMALL_NAME = 12, 11.5
# The longest entry, a blank, and how many more there are: a name of 24 digits, a value of 20, and "+15".
LONGEST = 24 + 1 + 20 + 2 + 3
LINE = 20
BETWEEN = 16
LOAD_WIDTH, COUNT_WIDTH = 112, 56
# The names of a bucket get as many lines as they need, while the picture has no more lines than this.
MOST_LINES = 40
# A store of more buckets than this is drawn in two columns.
ONE_COLUMN = 24
COLUMN_GAP = 36
TOP = 98


def store_svg(
    contents: Sequence[tuple[Bucket, Sequence[Entry]]], b: int, slots: int, trie: Trie, version: int
) -> Picture:
    """The buckets of a store in range order, each with its entries; how much room there is, and where there is none.

    >>> picture = store_svg([(Bucket(0, "", "", 2), [("gdp.at", 482), ("gdp.de", 4329)])], 4, 8, Trie(0, 0, []), 2)
    >>> picture
    <Picture: 2 names in 1 bucket of up to 4; 30 more fit at most>
    """
    full = _full(contents, b, slots, trie)
    names = sum(bucket.entries for bucket, _ in contents)
    splittable = any(bucket.slot not in full for bucket, _ in contents)
    free = slots - len(contents) if splittable else 0
    inside = b * len(contents) - names
    room = inside + b * free
    held = f"{_counted(names, 'name', 'names')} in {_counted(len(contents), 'bucket', 'buckets')} of up to {b}"
    title = f"{held}; {f'{room} more fit at most' if room else 'no more fit'}"
    columns = 1 if len(contents) <= ONE_COLUMN else 2
    draw = _one_column if columns == 1 else _two_columns
    width, bottom, body = draw(contents, b, full)
    parts = [
        _text(MARGIN, MARGIN + 13, held.capitalize(), size=15, font=SANS, weight="bold"),
        _text(width - MARGIN, MARGIN + 13, f"version {version}", size=11, font=SANS, fill=QUIET, anchor="end"),
        *_gauge(MARGIN, MARGIN + 26, width - 2 * MARGIN, names, inside, room - inside),
        _text(MARGIN, MARGIN + 54, _room_told(inside, free, b, trie), size=12, font=SANS, fill=QUIET),
        *body,
    ]
    notes = []
    if columns == 1 and len(contents) > 1:
        notes.append("Each bucket has the names above the bound over it and within the bound under it.")
    if any(bucket.entries == b and bucket.slot not in full for bucket, _ in contents):
        notes.append("Orange: the next new name splits the bucket.")
    if full and room:
        notes.append("Full: a new name that belongs there is refused.")
    if trie.count > 3 * MOST_STRINGS // 4:
        notes.append(f"{trie.count} of {MOST_STRINGS} strings are in use; a split that needs more is refused.")
    if (any(" " in name for _, entries in contents for name, _ in entries)
            or columns == 1 and any(" " in bucket.upper for bucket, _ in contents)):
        notes.append(f"{BLANK} is a blank.")
    lines, bottom = _notes(bottom + 26, notes) if notes else ([], bottom + MARGIN)
    return _picture(width, bottom, title, [*parts, *lines])


def _full(contents: Sequence[tuple[Bucket, Sequence[Entry]]], b: int, slots: int, trie: Trie) -> set[int]:
    """The slots whose bucket takes no further name, whichever it is.

    A bucket of b entries must be split. That needs a free slot; and a new string, unless the trie has one within the
    bucket's range already, and then more than one leaf leads to the bucket.
    """
    leaves = Counter(side[1] for cell in trie.cells for side in (cell.left, cell.right) if side[0] == "slot")
    none_free, no_string = len(contents) == slots, trie.count == MOST_STRINGS
    return {bucket.slot for bucket, _ in contents
            if bucket.entries == b and (none_free or no_string and leaves[bucket.slot] < 2)}


def _room_told(inside: int, free: int, b: int, trie: Trie) -> str:
    """What room there is, in a sentence."""
    no_string = trie.count == MOST_STRINGS
    why = "all strings are in use" if no_string else "no slot is free"
    if not inside and not free:
        return f"Full: every new name is refused, as {why}."
    if not free:
        return f"Room for up to {inside} more in these buckets; {why}."
    here = f"{inside} in these buckets and " if inside else ""
    there = f"{free * b} in {_counted(free, 'free slot', 'free slots')}"
    if_so = ", where a split needs no new string" if no_string else ""
    return f"Room for up to {inside + free * b} more: {here}{there}{if_so}."


def _gauge(x: float, y: float, width: float, names: int, inside: int, outside: int) -> Iterator[str]:
    """The names, the room in the buckets and the room in free slots, as parts of one bar."""
    scale = width / (names + inside + outside)
    yield _box(x, y, width, 10, CARD, EDGE, 5)
    if names or inside:
        yield _box(x, y, max(10, scale * (names + inside)), 10, ROOM, round_=5)
    if names:
        yield _box(x, y, max(10, scale * names), 10, LOAD, round_=5)


# An entry with the places of its name and of its value, from the left.
Placed = tuple[float, float, Entry]


def _long(entry: Entry, size: float) -> float:
    return _wide(len(entry[0]) + 1 + len(str(entry[1])), size)


def _in_a_line(entries: Sequence[Entry], width: float, size: float) -> list[Placed]:
    """As many entries as fit one line."""
    line: list[Placed] = []
    x = 0.0
    for entry in entries:
        if line and x + _long(entry, size) > width:
            break
        line.append((x, x + _wide(len(entry[0]) + 1, size), entry))
        x += _long(entry, size) + BETWEEN
    return line


def _in_lines(entries: Sequence[Entry], width: float, size: float) -> list[list[Placed]]:
    """The entries line by line; where they need more than one line, names and values stand under each other."""
    line = _in_a_line(entries, width, size)
    if len(line) == len(entries):
        return [line]
    values_at = _wide(max(len(name) for name, _ in entries) + 1, size)
    step = values_at + _wide(max(len(str(value)) for _, value in entries), size) + BETWEEN
    across = max(1, int((width + BETWEEN) // step))
    placed = [(place % across * step, place % across * step + values_at, entry) for place, entry in enumerate(entries)]
    return [placed[first : first + across] for first in range(0, len(placed), across)]


def _entries(x: float, y: float, lines: Sequence[list[Placed]], width: float, total: int, size: float) -> Iterator[str]:
    """The entries of these lines, and the number of those that have no place."""
    rest = total - sum(map(len, lines))
    for place, line in enumerate(lines):
        if rest and place == len(lines) - 1:
            # The number takes the place of the last one on the line where there is no other.
            while len(line) > 1 and _end_of(line[-1], size) + BETWEEN + _wide(3, size) > width:
                line, rest = line[:-1], rest + 1
            yield _text(x + _end_of(line[-1], size) + BETWEEN, y, f"+{rest}", size=size, fill=QUIET)
        for name_at, value_at, (name, value) in line:
            yield _text(x + name_at, y, _shown(name), size=size)
            yield _text(x + value_at, y, str(value), size=size, fill=VALUE)
        y += LINE
    if not total:
        yield _text(x, y - LINE, "no names", size=11, font=SANS, fill=QUIET)


def _end_of(placed: Placed, size: float) -> float:
    return placed[1] + _wide(len(str(placed[2][1])), size)


def _load(x: float, y: float, width: float, bucket: Bucket, b: int, full: bool) -> Iterator[str]:
    """How full a bucket is: a box for each entry that it has room for, and the numbers."""
    step = width / b
    held = FULL if full else SPLITS if bucket.entries == b else LOAD
    for fill, places in ((held, range(bucket.entries)), (ROOM, range(bucket.entries, b))):
        if places:
            boxes = "".join(f"M{x + place * step:g} {y:g}h{step - 2:g}v10h{2 - step:g}z" for place in places)
            yield f'<path d="{boxes}" fill="{fill}"/>'
    if full:
        yield _box(x + width + 4, y - 4, 36, 18, FULL, round_=9)
        yield _text(x + width + 22, y + 9, "full", size=11, font=SANS, fill=CARD, anchor="middle", weight="bold")
    else:
        yield _text(x + width + 6, y + 9.5, f"{bucket.entries} of {b}", size=11, font=SANS, fill=QUIET)


def _told(bucket: Bucket, entries: Sequence[Entry], b: int, full: bool) -> str:
    """All of a bucket, to be shown where the pointer rests on it."""
    above = f"above {_shown(bucket.lower)}" if bucket.lower else "no lower limit"
    within = f"within {_shown(bucket.upper)}" if bucket.upper else "no upper limit"
    heading = f"slot {bucket.slot}: {bucket.entries} of {b} entries{', full' * full}, {above}, {within}"
    return "\n".join([heading, *(f"{_shown(name)} {value}" for name, value in entries)])


Body = tuple[float, float, list[str]]


def _one_column(contents: Sequence[tuple[Bucket, Sequence[Entry]]], b: int, full: set[int]) -> Body:
    """A ladder of buckets with the bounds on its rungs: the picture's width, where it ends, and its parts."""
    longest = max(8, *(len(bucket.upper) for bucket, _ in contents))
    bound_width = _wide(longest, NAME) + 14
    fixed = 2 * MARGIN + bound_width + 54 + BETWEEN + LOAD_WIDTH + COUNT_WIDTH
    wanted = max(sum(_long(entry, NAME) + BETWEEN for entry in entries) for _, entries in contents)
    names_width = min(max(wanted, NARROWEST - fixed), max(WIDEST - fixed, _wide(LONGEST, NAME)))
    width = fixed + names_width
    lines = [_in_lines(entries, names_width, NAME) for _, entries in contents]
    most = _most([lines])
    x, y, right = MARGIN + bound_width, float(TOP), width - MARGIN
    parts = []
    for (bucket, entries), own in zip(contents, lines):
        parts.append(_rung(y, x, right, bucket.lower))
        is_full = bucket.slot in full
        parts.append(_group("bucket", _told(bucket, entries, b, is_full), [
            _text(x, y + 22, f"slot {bucket.slot}", size=11, font=SANS, fill=QUIET),
            *_entries(x + 54, y + 22, own[:most], names_width, len(entries), NAME),
            *_load(right - LOAD_WIDTH - COUNT_WIDTH, y + 12.5, LOAD_WIDTH, bucket, b, is_full),
        ]))
        y += 14 + LINE * min(most, len(own))
    parts.append(_rung(y, x, right, contents[-1][0].upper))
    return width, y, parts


def _rung(y: float, x: float, right: float, bound: str) -> str:
    """A bound, and the line between the bucket above it and the one below."""
    name = (_text(MARGIN, y + 4, _shown(bound), size=NAME) if bound
            else _text(MARGIN, y + 4, "no limit", size=11, font=SANS, fill=QUIET))
    return name + _line(x, y, right, y, HAIR)


def _most(columns: Sequence[Sequence[list[list[Placed]]]]) -> int:
    """How many lines a bucket may have."""
    for count in range(16, 1, -1):
        if all(sum(min(count, len(lines)) for lines in column) <= MOST_LINES for column in columns):
            return count
    return 1


def _two_columns(contents: Sequence[tuple[Bucket, Sequence[Entry]]], b: int, full: set[int]) -> Body:
    """The buckets in two columns: for bounds there is no place."""
    names_width, load_width = _wide(LONGEST, SMALL_NAME), 64
    column = 50 + names_width + BETWEEN + load_width + COUNT_WIDTH
    half = -(-len(contents) // 2)
    lines = [_in_lines(entries, names_width, SMALL_NAME) for _, entries in contents]
    most = _most([lines[:half], lines[half:]])
    if most == 1:
        lines = [[_in_a_line(entries, names_width, SMALL_NAME)] for _, entries in contents]
    parts, ends = [], []
    for first in (0, half):
        x, y = MARGIN + bool(first) * (column + COLUMN_GAP), TOP - 8
        for (bucket, entries), own in zip(contents[first : first + half], lines[first : first + half]):
            is_full = bucket.slot in full
            parts.append(_line(x, y, x + column, y, HAIR))
            parts.append(_group("bucket", _told(bucket, entries, b, is_full), [
                _text(x, y + 18, f"slot {bucket.slot}", size=11, font=SANS, fill=QUIET),
                *_entries(x + 50, y + 18, own[:most], names_width, len(entries), SMALL_NAME),
                *_load(x + column - load_width - COUNT_WIDTH, y + 8.5, load_width, bucket, b, is_full),
            ]))
            y += 6 + LINE * min(most, len(own))
        ends.append(y)
    return 2 * MARGIN + 2 * column + COLUMN_GAP, max(ends), parts


# The trie: inner nodes over their leaves, as Figure 1 of the first source in docs/RULES.md has them.

LEVEL = 46
NODE_WIDTH, NODE_HEIGHT = 40, 22
LEAF_WIDTH, LEAF_HEIGHT = 26, 20
NARROW = 32
# A trie wider than this with its paths written across has them written downwards instead.
WIDEST_ACROSS = 860
# A trie of more leaves than this, or deeper, is drawn in part: the largest parts are opened first.
MOST_LEAVES = 36
MOST_LEVELS = 16
EMPTY = "empty"
NOTES_WIDTH = 450


class _Node:
    """A leaf, or a cell with what hangs below it; `open` where that is drawn too."""

    def __init__(self, side: Side, depth: int, path: str) -> None:
        self.side = side
        self.depth = depth
        self.path = path
        self.below: list[_Node] = []
        self.leaves = 1
        self.deepest = depth
        self.open = False

    def drawn(self) -> Iterator[tuple[_Node, _Node | None]]:
        """What is drawn, from left to right, each with its parent."""
        waiting: list[tuple[_Node, _Node | None, bool]] = [(self, None, False)]
        while waiting:
            node, parent, left_is_done = waiting.pop()
            if node.open and not left_is_done:
                left, right = node.below
                waiting += [(right, node, False), (node, parent, True), (left, node, False)]
            else:
                yield node, parent


def _tree(trie: Trie) -> _Node:
    """The trie as a tree. One that leads to a cell twice, or past its count, is none: ValueError."""
    root = _Node(("cell", 0) if trie.count else ("slot", trie.first), 0, "")
    nodes, entered = [root], set()
    for node in nodes:
        kind, number = node.side
        if kind == "slot":
            continue
        if number in entered or not 0 <= number < trie.count:
            raise ValueError(f"the trie is no tree: it leads to cell {number} twice, or past its {trie.count} cells")
        entered.add(number)
        cell = trie.cells[number]
        node.below = [_Node(cell.left, node.depth + 1, node.path[:cell.number] + cell.digit),
                      _Node(cell.right, node.depth + 1, node.path)]
        nodes += node.below
    for node in reversed(nodes):
        if node.below:
            node.leaves = sum(child.leaves for child in node.below)
            node.deepest = max(child.deepest for child in node.below)
    return root


def _open(root: _Node, most_leaves: int, most_levels: int) -> None:
    """Open cells, the largest first, until so many leaves and parts are to be drawn."""
    closed = [root] if root.below else []
    for _ in range(most_leaves - 1):
        within = [node for node in closed if node.depth < most_levels]
        if not within:
            return
        node = max(within, key=lambda node: node.leaves)
        node.open = True
        closed.remove(node)
        closed += [child for child in node.below if child.below]


def trie_svg(trie: Trie, most_leaves: int = MOST_LEAVES, most_levels: int = MOST_LEVELS) -> Picture:
    """The trie: inner nodes with digit and digit number, leaves with their slot and the logical path to them.

    What is more than can be read at a glance stays closed, and is counted.

    >>> trie_svg(Trie(1, 0, [Cell("o", 0, ("slot", 0), ("slot", 1))]))
    <Picture: the trie: 1 cell and 2 leaves>
    """
    root = _tree(trie)
    _open(root, most_leaves, most_levels)
    nodes = list(root.drawn())
    ends = [node for node, _ in nodes if not node.open]
    closed = [node for node in ends if node.below]
    longest = max(len(EMPTY), *(len(node.path) for node in ends))
    across = _wide(longest, 13) + 14
    turned = len(ends) * across > WIDEST_ACROSS
    step = NARROW if turned else max(across, 2 * NARROW)
    title = f"the trie: {_counted(trie.count, 'cell', 'cells')} and {_counted(root.leaves, 'leaf', 'leaves')}"
    deep = (f"The deepest leaf is under {_counted(root.deepest, 'cell', 'cells')}" if trie.count
            else f"Every name goes to slot {trie.first}")
    room = f"there is room for {_counted(MOST_STRINGS - trie.count, 'more cell', 'more cells')}"
    top = MARGIN + 72
    # Nodes and leaves alternate from left to right, so half a step parts one from the next. Then nothing is ever drawn
    # below a leaf: the nodes on both sides of it are above it.
    width = 2 * MARGIN + max(len(ends) * step, NOTES_WIDTH)
    middle = (len(nodes) - 1) / 2
    places = {node: (width / 2 + (place - middle) * step / 2, top + node.depth * LEVEL)
              for place, (node, _) in enumerate(nodes)}
    edges, boxes = [], []
    for node, parent in nodes:
        x, y = places[node]
        if parent is not None:
            edges.append(_line(*places[parent], x, y, QUIET))
        if node.open:
            boxes.append(_cell(x, y, node.side[1], trie.cells[node.side[1]], node.path))
        else:
            boxes.append(_end(x, y, node, turned))
    bottom = max(top + node.depth * LEVEL + LEAF_HEIGHT / 2 + _label_height(node, turned) for node in ends) + 24
    notes = []
    if trie.count:
        notes.append("Blue: a cell's digit and digit number. A name within the cell's string goes left.")
    notes.append("Yellow: the slot of a leaf, and under it the logical path to the leaf.")
    if closed:
        inside = sum(node.leaves for node in closed)
        notes.append(f"Grey: how many leaves a part has that is not drawn; {inside} of the {root.leaves} in all.")
    if any(" " in node.path for node in ends):
        notes.append(f"{BLANK} is a blank.")
    lines, bottom = _notes(bottom, notes)
    heading = _text(MARGIN, MARGIN + 13, title[0].upper() + title[1:], size=15, font=SANS, weight="bold")
    told = _text(MARGIN, MARGIN + 34, f"{deep}; {room}.", size=12, font=SANS, fill=QUIET)
    return _picture(width, bottom, title, [heading, told, *edges, *boxes, *lines])


def _label_height(node: _Node, turned: bool) -> float:
    return 6 + _wide(len(node.path or EMPTY), 13) if turned else 20


def _cell(x: float, y: float, number: int, cell: Cell, path: str) -> str:
    left, top = x - NODE_WIDTH / 2, y - NODE_HEIGHT / 2
    string = _shown(path[:cell.number] + cell.digit)
    return _group("cell", f"cell {number}: digit {_shown(cell.digit)}, digit number {cell.number}, string {string}", [
        _box(left, top, NODE_WIDTH, NODE_HEIGHT, CELL_FILL, CELL_EDGE, 6),
        _line(x, top, x, top + NODE_HEIGHT, CELL_EDGE),
        _text(x - NODE_WIDTH / 4, y + 4.5, _shown(cell.digit), weight="bold", anchor="middle"),
        _text(x + NODE_WIDTH / 4, y + 4, str(cell.number), size=11, anchor="middle"),
    ])


def _end(x: float, y: float, node: _Node, turned: bool) -> str:
    """A leaf, or a part that stays closed."""
    # The empty path is told from a path that spells its name by font and shade.
    name, size, font, fill = (_shown(node.path), 13, MONO, TEXT) if node.path else (EMPTY, 11, SANS, QUIET)
    if turned:
        label = _text(x - 4, y + LEAF_HEIGHT / 2 + 6, name, size=size, font=font, fill=fill, turned=True)
    else:
        label = _text(x, y + LEAF_HEIGHT / 2 + 16, name, size=size, font=font, fill=fill, anchor="middle")
    path = "logical path " + name if node.path else "the empty path"
    left, top = x - LEAF_WIDTH / 2, y - LEAF_HEIGHT / 2
    if node.below:
        box = _box(left, top, LEAF_WIDTH, LEAF_HEIGHT, PART_FILL, PART_EDGE, 2, ' stroke-dasharray="3 2"')
        number = _text(x, y + 4, str(node.leaves), size=11, font=SANS, anchor="middle", fill=QUIET)
        return _group("part", f"{node.leaves} leaves, from {path} on", [box, number, label])
    box = _box(left, top, LEAF_WIDTH, LEAF_HEIGHT, LEAF_FILL, LEAF_EDGE, 2)
    number = _text(x, y + 4, str(node.side[1]), size=12, anchor="middle")
    return _group("leaf", f"slot {node.side[1]}, {path}", [box, number, label])
