"""The drawing of a design: its boxes layered left to right by reads, and the wires between them, as SVG.

`draw(result)` gives a Drawing with the coordinates of every box and wire, `svg(drawing)` its text. Wide drawings are
wrapped into bands; a wire that would leave its band is a short line into the box that reads it, where the net's name
says where it comes from.
"""
from dataclasses import dataclass, field
from html import escape

from boxes import LINE, TITLE, boxes_of

CHARACTER, PAD = 7.3, 8
TRIT, TRITS_A_ROW = 16, 16
COLUMN_GAP, ROW_GAP, BAND_GAP, MARGIN = 54, 16, 34, 14
WIDEST = 1120
MOST_BOXES = 160   # that a drawing shows
FEW, PART = 48, 24   # of more than FEW boxes the PART nearest to a broken edit are drawn first
LARGEST_SCALE = 1.4


@dataclass
class Drawing:
    boxes: list
    wires: list
    width: float = 0
    height: float = 0
    bands: list = field(default_factory=list)   # the y at which each band begins
    stubs: list = field(default_factory=list)   # (x, y, class): reads whose source is in another band or not drawn


# Layers

def _components(keys, reads):
    """The strongly connected components, by Tarjan's algorithm without recursion: key -> its component's number."""
    index, low, on_stack, stack, found = {}, {}, set(), [], {}
    for root in keys:
        if root in index:
            continue
        work = [(root, iter(reads.get(root, ())))]
        index[root] = low[root] = len(index)
        stack.append(root)
        on_stack.add(root)
        while work:
            key, rest = work[-1]
            step = next((other for other in rest if other not in index or other in on_stack), None)
            if step is None:
                work.pop()
                if work:
                    low[work[-1][0]] = min(low[work[-1][0]], low[key])
                if low[key] == index[key]:
                    _close(key, stack, on_stack, found)
            elif step in index:
                low[key] = min(low[key], index[step])
            else:
                index[step] = low[step] = len(index)
                stack.append(step)
                on_stack.add(step)
                work.append((step, iter(reads.get(step, ()))))
    return found


def _close(key, stack, on_stack, found):
    number = len(found)
    while True:
        other = stack.pop()
        on_stack.discard(other)
        found[other] = number
        if other == key:
            return


def _in_loops(boxes, wires):
    """The wires that lie on a loop."""
    reads = {}
    for wire in wires:
        reads.setdefault(wire.target, []).append(wire.source)
    component = _components(list(boxes), reads)
    return [wire for wire in wires if component[wire.source] == component[wire.target]]


def _mark_backwards(result, boxes, wires):
    """Marks the wires that are drawn backwards, so that the others have no loop; of the loop that is named only what the
    first reads."""
    order = {key: at for at, key in enumerate(boxes)}
    loop = result.loop or []
    named = [('now', slot) for slot in loop[:1] + loop[:0:-1] if ('now', slot) in boxes]
    order.update(zip(named, sorted(order[key] for key in named)))
    for wire in _in_loops(boxes, wires):
        wire.back = order[wire.source] >= order[wire.target]


def _mark_loops(result, boxes, wires):
    """Marks the wires of current loops, in which cells without an output do not count, and those of the loop that is
    named."""
    skipped = {('now', cell.slot) for cell in result.cells if not cell.width and cell.operation != 'Void'}
    loop = result.loop or []
    reads = {(('now', source), ('now', target)) for target, source in zip(loop, loop[1:] + loop[:1])}
    for wire in _in_loops(boxes, [wire for wire in wires if wire.target not in skipped]):
        wire.looped, wire.named = True, (wire.source, wire.target) in reads


def _layer(boxes, wires):
    """Each box goes one layer after the last box it reads."""
    readers, waiting = {}, {key: 0 for key in boxes}
    for wire in wires:
        if not wire.back:
            readers.setdefault(wire.source, []).append(wire.target)
            waiting[wire.target] += 1
    ready = [key for key in boxes if not waiting[key]]
    for key in ready:
        for target in readers.get(key, ()):
            boxes[target].layer = max(boxes[target].layer, boxes[key].layer + 1)
            waiting[target] -= 1
            if not waiting[target]:
                ready.append(target)


def _size(box):
    title = len(box.title) + (len(box.note) + 2 if box.note else 0)
    longest = max([title] + [len(row.role) + 1 + len(row.text) + 3 * bool(row.trit) for row in box.rows])
    trits = min(len(box.trits), TRITS_A_ROW) * TRIT
    box.width = max(84, longest * CHARACTER, trits) + 2 * PAD
    lines = -(-len(box.trits) // TRITS_A_ROW)
    box.height = TITLE + LINE * len(box.rows) + (TRIT + 4) * lines + PAD


def _bands(boxes, left):
    """Wraps the layers into bands from `left` to WIDEST; the width of each layer."""
    widths = {}
    for box in boxes:
        widths[box.layer] = max(widths.get(box.layer, 0), box.width)
    band, x, places = 0, left, {}
    for layer in sorted(widths):
        if x > left and x + widths[layer] > WIDEST:
            band, x = band + 1, left
        places[layer] = (band, x)
        x += widths[layer] + COLUMN_GAP
    for box in boxes:
        box.band, box.x = places[box.layer]
    return widths


# Places within a band

class _Node:
    """A box, or the place where a wire crosses a layer."""

    def __init__(self, layer, height, box=None):
        self.layer, self.height, self.box = layer, height, box
        self.y = 0
        self.before, self.after = [], []   # (node, its offset, own offset)

    def wanted(self, neighbours):
        """The y at which the wires to the neighbours would run straight."""
        if not neighbours:
            return self.y
        return sum(other.y + there - here for other, there, here in neighbours) / len(neighbours)


def _nodes(boxes, wires):
    """The nodes of a band by layer, and those that each wire passes; wires from one source cross layers together."""
    nodes = {box.key: _Node(box.layer, box.height, box) for box in boxes}
    layers, crossings, paths = {}, {}, []
    for node in nodes.values():
        layers.setdefault(node.layer, []).append(node)
    for wire in wires:
        path = [nodes[wire.source]]
        for layer in range(path[0].layer + 1, nodes[wire.target].layer):
            key = wire.source, wire.style, layer
            if key not in crossings:
                crossings[key] = _Node(layer, 8)
                layers[layer].append(crossings[key])
            path.append(crossings[key])
        path.append(nodes[wire.target])
        _link(path, wire)
        paths.append((wire, path))
    return layers, paths


def _link(path, wire):
    for at in range(len(path) - 1):
        one, other = path[at], path[at + 1]
        leaves = one.box.out_y() - one.box.y if one.box else 4
        enters = other.box.row_y(wire.row) - other.box.y if other.box else 4
        if other.box or (one, leaves, enters) not in other.before:
            one.after.append((other, enters, leaves))
            other.before.append((one, leaves, enters))


def _place(layer, wanted):
    """Moves a layer's nodes, in their order, as near to the wanted places as heights allow: isotonic regression."""
    offsets, total = [], 0
    for node in layer:
        offsets.append(total)
        total += node.height + ROW_GAP
    pools = []
    for node, offset in zip(layer, offsets):
        pools.append([wanted[id(node)] - offset, 1])
        while len(pools) > 1 and pools[-2][0] > pools[-1][0]:
            mean, many = pools.pop()
            pools[-1] = [(pools[-1][0] * pools[-1][1] + mean * many) / (pools[-1][1] + many), pools[-1][1] + many]
    starts = [mean for mean, many in pools for _ in range(many)]
    for node, start, offset in zip(layer, starts, offsets):
        node.y = start + offset


def _settle(layers):
    """Orders each layer by its neighbours and gives every node its y."""
    for layer in layers.values():
        _place(layer, {id(node): 0 for node in layer})
    for turn in range(8):
        forward = turn % 2 == 0
        for number in sorted(layers, reverse=not forward):
            layer = layers[number]
            wanted = {id(node): node.wanted(node.before if forward else node.after) for node in layer}
            if turn < 6:
                layer.sort(key=lambda node: wanted[id(node)] + node.height / 2)
            _place(layer, wanted)


def _band(boxes, wires, top, widths):
    """Places the boxes of a band below `top`; where the band ends."""
    forward = [wire for wire in wires if not wire.back]
    layers, paths = _nodes(boxes, forward)
    _settle(layers)
    shift = top - min(node.y for layer in layers.values() for node in layer)
    bottom = top
    for layer in layers.values():
        for node in layer:
            node.y += shift
            bottom = max(bottom, node.y + node.height)
            if node.box:
                node.box.y = node.y
    left = {box.layer: box.x for box in boxes}
    for wire, path in paths:
        wire.points = _points(wire, path, left, widths)
    return bottom


def _points(wire, path, left, widths):
    """The points of a wire: straight to the end of its layer, curved to the next, straight across it, and so on."""
    source, target = path[0].box, path[-1].box
    points = [(source.x + source.width, source.out_y()), (left[source.layer] + widths[source.layer], source.out_y())]
    for node in path[1:-1]:
        points += [(left[node.layer], node.y + 4), (left[node.layer] + widths[node.layer], node.y + 4)]
    return points + [(target.x, target.row_y(wire.row))]


def _back(wires, boxes, bottom, widths):
    """Leads the wires that close a loop below the band and back; where the band ends then."""
    for number, wire in enumerate(wires):
        source, target = boxes[wire.source], boxes[wire.target]
        low, out = bottom + 12 + 9 * number, 14 + 4 * (number % 6)
        right, leave = source.x + widths[source.layer] + out, source.out_y()
        left, enter = target.x - out, target.row_y(wire.row)
        wire.points = [(source.x + source.width, leave), (right, leave), (right, low), (left, low), (left, enter),
                       (target.x, enter)]
    return bottom + (12 + 9 * len(wires) if wires else 0)


def draw(result, part=False):
    """The drawing of a result, or of the boxes nearest to its first broken edit, else to its loop; None where there are
    no boxes to draw, or more than MOST_BOXES."""
    boxes, wires = boxes_of(result)
    _mark_loops(result, boxes, wires)
    if part:
        boxes = _nearest(result, boxes, wires)
    if not 0 < len(boxes) <= MOST_BOXES:
        return None
    drawing = Drawing(list(boxes.values()), [wire for wire in wires if wire.target in boxes])
    inner = [wire for wire in drawing.wires if wire.source in boxes]
    _mark_backwards(result, boxes, inner)
    _layer(boxes, inner)
    for box in drawing.boxes:
        _size(box)
    _fill(drawing, boxes, inner, _bands(drawing.boxes, 2 * MARGIN + 20 * any(wire.back for wire in inner)))
    return drawing


def _nearest(result, boxes, wires):
    """The first broken edit's box, else those of the loop that is named, and what they read first: PART boxes at most,
    in the order of all boxes."""
    sources = {}
    for wire in wires:
        sources.setdefault(wire.target, []).append(wire.source)
    near = [box.key for box in boxes.values() if box.kind == 'broken'][:1]
    near = near or [('now', slot) for slot in result.loop or ()][:PART]
    for key in near:
        found = [source for source in dict.fromkeys(sources.get(key, ())) if source not in near]
        near += found[:max(0, PART - len(near))]
    return {key: box for key, box in boxes.items() if key in near}


def _fill(drawing, boxes, inner, widths):
    """Places band after band."""
    top = MARGIN
    for band in range(max(box.band for box in drawing.boxes) + 1):
        inside = [box for box in drawing.boxes if box.band == band]
        wires = [wire for wire in inner if boxes[wire.source].band == band == boxes[wire.target].band]
        drawing.bands.append(top)
        bottom = _band(inside, wires, top, widths)
        top = _back([wire for wire in wires if wire.back], boxes, bottom, widths) + BAND_GAP
    _stubs(drawing, boxes)
    drawing.width = max(box.x + box.width for box in drawing.boxes) + MARGIN + 24
    drawing.height = top - BAND_GAP + MARGIN


def _stubs(drawing, boxes):
    """The short arrows that stand for wires from another band, or from a box that is not drawn."""
    seen = set()
    for wire in sorted(drawing.wires, key=lambda wire: not wire.named):
        target = boxes[wire.target]
        cut = wire.source not in boxes or boxes[wire.source].band != target.band
        if cut and (wire.target, wire.row, wire.style) not in seen:
            seen.add((wire.target, wire.row, wire.style))
            drawing.stubs.append((target.x, target.row_y(wire.row), _class(wire)))


# SVG

def _number(value):
    return f'{value:.1f}'.rstrip('0').rstrip('.')


def _text(x, y, content, css, anchor=''):
    where = f' text-anchor="{anchor}"' if anchor else ''
    return f'<text x="{_number(x)}" y="{_number(y)}" class="{css}"{where}>{escape(content)}</text>'


def _curve(wire):
    """The path of a wire: straight across a layer, curved between layers; loops run square."""
    points = [(_number(x), _number(y)) for x, y in wire.points]
    if wire.back:
        return 'M' + ' L'.join(f'{x},{y}' for x, y in points)
    parts = [f'M{points[0][0]},{points[0][1]}']
    for at in range(1, len(wire.points)):
        (x0, y0), (x1, y1) = wire.points[at - 1], wire.points[at]
        if at % 2:
            parts.append(f'L{points[at][0]},{points[at][1]}')
        else:
            bend = max(18, (x1 - x0) / 2)
            parts.append(f'C{_number(x0 + bend)},{_number(y0)} {_number(x1 - bend)},{_number(y1)} '
                         f'{points[at][0]},{points[at][1]}')
    return ' '.join(parts)


def _class(wire):
    """The class of a wire: its style, and whether it is of the loop that is named or of another one."""
    return ' '.join(filter(None, ('wire', wire.style, 'named' if wire.named else 'loop' if wire.looped else '')))


def _wire_svg(wire):
    css = _class(wire)
    x, y = (_number(value) for value in wire.points[-1])
    return f'<path class="{css}" d="{_curve(wire)}"/><circle class="end {css}" cx="{x}" cy="{y}" r="2.5"/>'


def _stub_svg(stub):
    x, y, css = stub
    return (f'<path class="{css}" d="M{_number(x - 12)},{_number(y)} L{_number(x)},{_number(y)}"/>'
            f'<circle class="end {css}" cx="{_number(x)}" cy="{_number(y)}" r="2.5"/>')


def trit_svg(x, y, text, hidden):
    """A trit in its square; the square of an X with a 1 hidden under it is dotted."""
    css = 'trit ' + {'0': 'zero', '1': 'one', 'X': 'undefined', None: 'absent'}[text] + (' hidden' if hidden else '')
    return (f'<rect class="{css}" x="{_number(x + 1)}" y="{_number(y)}" width="{TRIT - 2}" height="{TRIT}" rx="2"/>'
            + _text(x + TRIT / 2, y + 12.5, text or '·', css + ' sign', 'middle'))


def _trits_svg(box):
    top = box.y + TITLE + LINE * len(box.rows) + 3
    parts = []
    short = -len(box.trits) % TRITS_A_ROW if len(box.trits) > TRITS_A_ROW else 0
    for at, (text, hidden) in enumerate(box.trits, short):
        row, column = divmod(at, TRITS_A_ROW)
        parts.append(trit_svg(box.x + PAD + column * TRIT, top + row * (TRIT + 4), text, hidden))
    return parts


def _box_svg(box):
    x, y, width, height = (_number(value) for value in (box.x, box.y, box.width, box.height))
    parts = [f'<g class="box {box.kind}">',
             f'<rect class="frame" x="{x}" y="{y}" width="{width}" height="{height}" rx="4"/>',
             _text(box.x + PAD, box.y + 15.5, box.title, 'title')]
    if box.note:
        parts.append(_text(box.x + box.width - PAD, box.y + 15.5, box.note, 'note', 'end'))
    for at, row in enumerate(box.rows):
        base = box.row_y(at) + 4
        parts.append(_text(box.x + PAD, base, row.role, 'role'))
        whole = f'<title>{escape(row.whole)}</title>' if row.whole != row.text else ''
        end = box.x + box.width - PAD
        if row.trit:
            parts.append(trit_svg(end - TRIT, box.row_y(at) - TRIT / 2, *row.trit))
            end -= TRIT + 5
        parts.append(f'<text x="{_number(end)}" y="{_number(base)}" class="nets" text-anchor="end">{whole}'
                     f'{escape(row.text)}</text>')
    return '\n'.join(parts + _trits_svg(box) + ['</g>'])


def svg(drawing, label='The cells and nets of the design'):
    """The drawing as SVG, enlarged where there is room; the page has its styles."""
    scale = min(LARGEST_SCALE, max(1, (WIDEST + MARGIN) / drawing.width))
    size = ' '.join(_number(value) for value in (drawing.width, drawing.height))
    parts = [f'<svg xmlns="http://www.w3.org/2000/svg" role="img" aria-label="{escape(label)}" viewBox="0 0 {size}" '
             f'width="{_number(drawing.width * scale)}" height="{_number(drawing.height * scale)}" '
             f'style="min-width: {_number(drawing.width)}px">']
    for top in drawing.bands[1:]:
        y = _number(top - BAND_GAP / 2)
        parts.append(f'<path class="band" d="M{MARGIN},{y} L{_number(drawing.width - MARGIN)},{y}"/>')
    parts += [_wire_svg(wire) for wire in sorted(drawing.wires, key=lambda wire: wire.named) if wire.points]
    parts += [_stub_svg(stub) for stub in drawing.stubs]
    parts += [_box_svg(box) for box in drawing.boxes]
    return '\n'.join(parts + ['</svg>'])
