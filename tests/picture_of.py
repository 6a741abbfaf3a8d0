#!/usr/bin/env python3
"""picture_of.py SHOW MAP FAULTS DUMP: the picture of a board, made slowly of the texts that `show`, `map` and
`faults --why` print, and of the titles of the dump. The program's `picture` has to print the same bytes.
`picture_of.py --look SVG MAP` says what of a picture's own rule an SVG breaks, and has status 1 where it breaks any.

All positions are whole numbers in SVG's units. docs/FORMATS.md ("Picture") has the rule."""
import re
import sys
import xml.etree.ElementTree as xml
from html import escape

LINE, GAP, COLUMN, LEAF, AXIS, TREE, LOST, LINES = 14, 14, 126, 330, 132, 400, 240, 40
CLASSES = {
    '00': 'old device', '0101': 'IDE controller', '0104': 'RAID controller', '0106': 'SATA controller',
    '0107': 'SAS controller', '0108': 'NVMe controller', '01': 'storage', '0200': 'Ethernet controller',
    '0207': 'InfiniBand controller', '02': 'network', '0300': 'VGA display', '03': 'display', '0403': 'audio device',
    '04': 'multimedia', '05': 'memory', '0600': 'host bridge', '0601': 'ISA bridge', '06': 'bridge',
    '0700': 'serial port', '07': 'communication', '08': 'system device', '09': 'input', '0b40': 'co-processor',
    '0b': 'processor', '0c03': 'USB controller', '0c05': 'SMBus', '0c': 'serial bus', '10': 'encryption',
    '11': 'signal processing', '12': 'accelerator'}
STYLE = '''
text{font:10px "DejaVu Sans Mono",Menlo,Consolas,monospace;fill:#222}
.title{font-size:16px;font-weight:bold}.head{font-size:13px;font-weight:bold}.bold{font-weight:bold}
.quiet{fill:#777}.faint{fill:#aaa}.axis{text-anchor:end;fill:#555}.alarm{fill:#b00020}
rect{stroke:#8a93a0;stroke-width:1}.window{fill:#dfe8f5}.bar{fill:#bfe3c0}.pref{fill:#a8dcd9}.rom{fill:#e2cdf0}
.free{fill:#fff;stroke:#ccc}.off{fill:#eee;stroke:#aaa;stroke-dasharray:2 2}
.clash{stroke:#b00020;stroke-width:2}.lost{fill:#ffe2b8;stroke:#c05a00;stroke-width:2;stroke-dasharray:5 3}
.shared{fill:url(#hatch);stroke:#b00020}.alarm.bold{font-weight:bold}.fits{fill:#f2fbf2;stroke:#2e7d32;\
stroke-dasharray:4 2}.good{fill:#2e7d32}.tick{stroke:#999}.gap{stroke:#bbb;stroke-dasharray:1 4}
'''
HATCH = ('<defs><pattern id="hatch" width="6" height="6" patternUnits="userSpaceOnUse" patternTransform="rotate(45)">'
         '<path d="M0 0V6" stroke="#b00020" stroke-width="2" stroke-opacity="0.45"/></pattern></defs>')
COLOURS = '<style>.told:not(.lost){fill:#f4e9a8}.held:not(.lost){fill:#d8cfc4}</style>\n'
SLOT = r'[0-9a-f]{2}:[0-9a-f]{2}\.[0-9a-f]'


class Region:
    """A line of a map."""
    def __init__(self, text):
        self.text = text.strip()
        m = re.fullmatch(r'([0-9a-f]+)-([0-9a-f]+) (\S+) (.*?)(?: (..:..\..) ([0-9a-f]{2}|\+\d+)(?: (\S+))?)?', self.text)
        self.digits, self.first, self.last, self.size, self.part = len(m[1]), int(m[1], 16), int(m[2], 16), m[3], m[4]
        self.slot, self.register, self.inside = m[5], m[6], []
        self.key = (m[5], m[6])
        self.css = {'bar pref': 'pref', 'told pref': 'told', 'held pref': 'held'}.get(self.part, self.part)
        self.is_told = self.css in ('told', 'held')
        self.name = m[7] if self.is_told else None
        # the told ranges of a function come behind its registers
        self.place = (self.is_told, int(m[6][1:]) if self.is_told else int(m[6] or 'ff', 16))


class Function:
    """A function of a listing."""
    def __init__(self, words):
        self.ids, self.kind, self.command = words[4] + ':' + words[6], words[8], int(words[10], 16)
        self.secondary = self.subordinate = None
        self.title = ''

    def name(self):
        if self.title:
            return self.title
        word = CLASSES.get(self.kind[:4]) or CLASSES.get(self.kind[:2]) or 'class ' + self.kind
        return word + ' ' + self.ids

    def buses(self):
        if self.subordinate == '00':
            return 'no bus'
        if self.secondary == self.subordinate:
            return 'bus ' + self.secondary
        return f'buses {self.secondary}-{self.subordinate}'


def read_map(lines):
    """The sections (bus, space, regions), and the lists behind them."""
    sections, lists, stack = [], {'outside': [], 'unreached': [], 'off': []}, None
    for line in lines:
        depth, words = (len(line) - len(line.lstrip())) // 2, line.split()
        if depth == 0:
            left_out = 0
            if words[0] == 'bus':
                sections.append((words[1], words[2], []))
                stack = [sections[-1][2]]
            else:
                stack = [lists[words[0]]]
        elif words[0] == 'unclaimed':
            # what a bridge takes stands where regions of its root bus do
            left_out = 1
        else:
            region = Region(line)
            del stack[depth - left_out:]
            stack[-1].append(region)
            stack.append(region.inside)
    return sections, lists


def read_show(lines):
    """The functions; none where the listing is refused."""
    functions, last = {}, None
    for line in lines:
        if line.startswith('no '):
            continue
        words = line.split()
        if not line.startswith(' '):
            last = functions[words[0]] = Function(words)
        elif words[0] == 'bus':
            last.secondary, last.subordinate = words[2], words[3]
    return functions


def read_faults(lines):
    """Each fault's line with the lines behind it."""
    faults = []
    for line in lines:
        if re.match(r'\d\d ', line):
            faults.append([line])
        elif line.startswith('  ') and faults:
            faults[-1].append(line.strip())
    return faults


def read_titles(path):
    """The title of each slot line. What is not printable ASCII shows as `?`."""
    titles = {}
    for line in open(path, 'rb').read().decode('latin-1').split('\n'):
        m = re.fullmatch(f'({SLOT}) (.+)', line, re.S)
        if m:
            titles[m[1]] = re.sub('[^ -~]', '?', m[2])
    return titles


def size_of(text):
    return text + ' B' if text.isdigit() else text


def each(regions):
    for region in regions:
        yield region
        yield from each(region.inside)


def deepest(regions, depth=1):
    return max([depth] + [deepest(r.inside, depth + 1) for r in regions if r.inside])


class Heights:
    """Where each cut of a section stands, and the runs between cuts: (first, last, top, height, is_covered)."""
    def __init__(self, regions, space, top, ranges):
        base = 4 if space == 'io' else 12
        cuts = sorted({r.first for r in regions} | {r.last + 1 for r in regions}
                      | {first for first, _ in ranges} | {last + 1 for _, last in ranges})
        self.top, self.runs = {}, []
        for first, past in zip(cuts, cuts[1:]):
            self.top[first] = top
            is_covered = any(r.first <= first <= r.last for r in regions)
            height = LINE + max(0, (past - first).bit_length() - 1 - base) if is_covered else GAP
            self.runs.append((first, past - 1, top, height, is_covered))
            top += height
        self.top[cuts[-1]] = self.bottom = top


def lanes(regions):
    """Regions, by rising address, with their lane and how many lanes their group has."""
    group, until, out = [], -1, []
    for r in regions:
        if r.first > until:
            out += [(s, lane, max(l for _, l in group) + 1) for s, lane in group]
            group = []
        taken = {lane for s, lane in group if s.last >= r.first}
        lane = next(n for n in range(len(group) + 1) if n not in taken)
        group.append((r, lane))
        until = max(s.last for s, _ in group)
    return out + [(s, lane, max(l for _, l in group) + 1) for s, lane in group]


class Picture:
    def __init__(self, show, map_lines, faults, titles):
        self.functions, (self.sections, self.lists) = read_show(show), read_map(map_lines)
        self.faults = read_faults(faults)
        for slot, title in titles.items():
            if slot in self.functions:
                self.functions[slot].title = title
        self.boxes, self.words = [], []
        self.named, self.shared, self.fits, self.badges = {}, [], [], {}
        for n, (head, *reasons) in enumerate(self.faults):
            self.take(n, head.split(), reasons)

    def take(self, n, words, reasons):
        number = int(words[0])
        keys = {60: [(words[2], words[3])], 63: [(words[2], words[3])]}.get(number, [])
        if number in (61, 62):
            keys = [(words[-4], words[-3]), (words[-2], words[-1])]
        for key in keys:
            self.named.setdefault(key, []).append(n)
        if number == 60:
            self.badges.setdefault(words[-1], set()).add('60 bridge')
        slots = [key[0] for key in keys] or [w for w in words if re.fullmatch(SLOT, w)][:1]
        for slot in slots:
            self.badges.setdefault(slot, set()).add(str(number))
        for line in reasons:
            m = re.match(r'(shared|fits) ([0-9a-f]+)-([0-9a-f]+) ', line)
            if m:
                told = (n, keys, len(m[2]), int(m[2], 16), int(m[3], 16))
                (self.shared if m[1] == 'shared' else self.fits).append(told)

    def text(self, x, y, words, css='', width=None):
        if width is not None:
            inside = max(0, width - 3)
            room = max(0, inside // 6 - inside // 1000)
            if len(words) > room:
                words = words[:room - 2] + '..' if room > 3 else ''
        if words:
            self.words.append(f'<text x="{x}" y="{y}"' + (f' class="{css}"' if css else '') + f'>{escape(words)}</text>')

    def heading(self, x, y, css, words):
        css = f' class="{css}"' if css else ''
        self.boxes.append(f'<text x="{x}" y="{y}"{css}>{escape(words)}</text>')

    def box(self, x, y, width, height, css, title, anchor=''):
        self.boxes.append(f'<rect x="{x}" y="{y}" width="{width}" height="{height}" class="{css}"{anchor}>'
                          f'<title>{escape(title)}</title></rect>')

    def name(self, slot):
        return self.functions[slot].name() if slot in self.functions else ''

    def called(self, r):
        """What a box says of a region behind its size."""
        if r.name:
            return ', ' + r.name
        return '' if r.css == 'held' and r.slot not in self.functions else ', ' + self.name(r.slot)

    def buses(self, slot):
        return self.functions[slot].buses() if slot in self.functions else 'no bus'

    def title(self, r):
        lines = [r.text]
        if r.slot:
            lines.append(self.name(r.slot))
        if r.part == 'window':
            lines.append('to ' + self.buses(r.slot))
        for n in self.named.get(r.key, []):
            lines += self.faults[n]
        return '\n'.join(lines)

    def numbers(self, r):
        return sorted({self.faults[n][0][:2] for n in self.named.get(r.key, [])})

    def draw(self, regions, heights, left, right, is_lost=False):
        for r, lane, of in lanes(regions):
            a, b = left + (right - left) * lane // of, left + (right - left) * (lane + 1) // of
            y, past = heights.top[r.first], heights.top[r.last + 1]
            numbers = self.numbers(r)
            css = r.css
            css += ' clash' if {'61', '62'} & set(numbers) else ''
            css += ' lost' if is_lost or {'60', '63'} & set(numbers) else ''
            self.box(a, y, max(1, b - a - 2), past - y - 1, css, self.title(r),
                     f' id="r{r.slot}-{r.register}"' if r.slot else '')
            inner = min(b, a + self.column) if r.part == 'window' else b
            room = inner - a - 6
            if r.part == 'free':
                self.frees.append((r, a, max(a, b - 2)))
                self.text(a + 5, y + 11, 'free ' + size_of(r.size), 'quiet', room)
            elif r.part == 'window':
                self.text(a + 5, y + 11, f'{r.slot} {r.register}, {size_of(r.size)}', 'bold', room)
                if past - y >= 2 * LINE:
                    self.text(a + 5, y + 23, 'to ' + self.buses(r.slot), 'quiet', room)
            else:
                marks = ' '.join(numbers) + ': ' if numbers else ''
                self.text(a + 5, y + 11, f'{marks}{r.slot} {r.register}, {size_of(r.size)}{self.called(r)}',
                          'alarm' if numbers else '', room)
            self.places.setdefault(r.key, []).append((a, max(0, b - 2)))
            if r.inside:
                self.draw(r.inside, heights, inner, b)

    def root_of(self, slot):
        """The root bus above a slot. A bridge without a bus, whose bus numbers are 0, leads nowhere."""
        bus, seen = slot[:2], set()
        while bus not in seen:
            seen.add(bus)
            above = [s for s, f in self.functions.items() if f.secondary == bus and bus != '00']
            if above:
                bus = above[0][:2]
        return bus

    def axis(self, x, heights, edge, digits, last):
        for first, _, top, height, is_covered in heights.runs:
            if is_covered:
                words = f'{first:0{digits}x}'
                zeros = len(words) - len(words.lstrip('0'))
                body = f'<tspan class="faint">{words[:zeros]}</tspan>{words[zeros:]}'
            else:
                body = f'<tspan class="faint">to {max(0, first - 1):0{digits}x}</tspan>'
            self.boxes.append(f'<text x="{x - 6}" y="{top + 11}" class="axis">{body}</text>')
            if is_covered:
                self.boxes.append(f'<path d="M{x - 4} {top}h4" class="tick"/>')
            else:
                self.boxes.append(f'<path d="M{x} {top + height // 2}H{edge}" class="gap"/>')
        self.heading(x - 6, heights.bottom + 11, 'axis faint', f'to {last:0{digits}x}')

    def section(self, bus, space, regions, lost, x, y, width):
        self.heading(x, y + 13, 'head', f'bus {bus}, {"I/O" if space == "io" else "memory"}')
        every = list(each(regions)) + lost
        here, digits = {r.key for r in every if r.slot}, every[0].digits
        shared = [t for t in self.shared if here & set(t[1]) and t[2] == digits]
        fits = [t for t in self.fits if t[1][-1] in here and t[2] == digits]
        heights = Heights(every, space, y + 22, [t[3:] for t in shared + fits])
        axis, edge = x + AXIS, x + AXIS + width
        split = edge - LOST if lost else edge
        self.places, self.frees = {}, []
        self.axis(axis, heights, edge, digits, max(r.last for r in every))
        self.draw(sorted(regions, key=lambda r: r.first), heights, axis, split)
        self.draw(sorted(lost, key=lambda r: (r.first, r.slot, r.place)), heights, split + 8, edge, True)
        for n, keys, _, first, last in shared:
            spots = [p for k in keys for p in self.places.get(k, [])]
            if spots:
                a, b = min(p[0] for p in spots), max(p[1] for p in spots)
                high = heights.top[last + 1] - heights.top[first] - 1
                self.box(a, heights.top[first], max(1, b - a), max(3, high), 'shared', '\n'.join(self.faults[n]))
        for n, keys, _, first, last in fits:
            for r, a, b in self.frees:
                if r.first <= first and last <= r.last:
                    high = heights.top[last + 1] - heights.top[first] - 3
                    self.box(a + 90, heights.top[first] + 1, max(1, b - a - 92), high, 'fits', '\n'.join(self.faults[n]))
                    self.text(a + 96, heights.top[first] + 11, ' '.join(keys[-1]) + ' would fit', 'good', b - a - 100)
                    break
        return heights.bottom + 30

    def row(self, slot, depth, x, y):
        f = self.functions[slot]
        badge = ' '.join(sorted(self.badges.get(slot, ())))
        off = not f.command & 3
        at = x + 14 * min(depth, 12)
        self.box(at, y + 2, 8, 9, 'window' if f.secondary else 'off' if off else 'bar', slot)
        words = f'{slot} ' + (f'to {f.buses()}, ' if f.secondary else '') + f.name()
        css = 'alarm' if badge else 'quiet' if off else ''
        self.text(at + 14, y + 10, words, css, x + TREE - at - 36 - 7 * len(badge))
        self.text(x + TREE - 16 - 7 * len(badge), y + 10, badge, 'alarm bold')

    def tree(self, x, y):
        """The functions, each bridge with what is behind it below it. Each bus is drawn once."""
        on_bus, drawn = {}, set()
        for slot in self.functions:
            on_bus.setdefault(slot[:2], []).append(slot)
        behind = {f.secondary for f in self.functions.values() if f.secondary and f.secondary != '00'}

        def bus(number, depth, y):
            drawn.add(number)
            for slot in on_bus.get(number, []):
                self.row(slot, depth, x, y)
                y += LINE
                below = self.functions[slot].secondary
                if below and below not in drawn and below in on_bus:
                    y = bus(below, depth + 1, y)
            return y
        for root in sorted(set(on_bus) - behind):
            if root not in drawn:
                self.heading(x, y + 11, 'bold', f'bus {root}')
                y = bus(root, 0, y + LINE + 2) + 8
        return y

    def counts(self):
        regions = sum(1 for s in self.sections for r in each(s[2]) if r.slot)
        faults = f'{len(self.faults)} fault{"s" * (len(self.faults) > 1)}' if self.faults else 'no fault'
        return f'{len(self.functions)} functions, {regions} regions; {faults}. Heights grow with the logarithm of sizes.'

    def has_told(self):
        parts = [s[2] for s in self.sections] + list(self.lists.values())
        return any(r.is_told for part in parts for r in each(part))

    def legend(self, y):
        x = 16
        for css, title, words in (
                ('window', 'window', 'window'), ('bar', 'BAR', 'BAR'), ('pref', 'prefetchable', 'prefetchable'),
                ('rom', 'ROM', 'ROM'), ('free', 'free', 'free'), ('bar clash', 'clash', 'clash'),
                ('bar lost', 'not reached', 'not reached'), ('off', 'off', 'off'),
                ('shared', 'shared', 'shared addresses'), ('fits', 'fits', 'where it would fit'),
                *((('told', 'told', 'told'), ('held', 'held', 'held')) if self.has_told() else ())):
            self.box(x, y - 9, 16, 11, css, title)
            self.text(x + 21, y, words)
            last, x = x, x + 34 + 7 * len(words)
        return last

    def told(self, y):
        """The faults, up to 40 lines. The answer is the last base line."""
        room = LINES
        for n, fault in enumerate(self.faults):
            if room < len(fault):
                self.text(16, y + LINE, f'and {len(self.faults) - n} more', 'alarm bold')
                return y + LINE
            room -= len(fault)
            for line in fault:
                y += LINE
                self.text(16 if line is fault[0] else 32, y, line, 'alarm bold' if line is fault[0] else '')
        return y

    def off(self, x, y, width):
        if not self.lists['off']:
            return y
        self.heading(x, y + 13, 'head', 'off')
        y += 22
        for r in self.lists['off']:
            self.box(x + AXIS, y, width, LINE - 1, 'off', self.title(r))
            words = f'{r.slot} {r.register}, {size_of(r.size)}, {r.text.split()[0]}{self.called(r)}'
            self.text(x + AXIS + 5, y + 11, words, 'quiet', width)
            y += LINE
        return y

    def svg(self):
        depth = max([1] + [deepest(s[2]) for s in self.sections])
        self.column = min(COLUMN, 10 * COLUMN // max(1, depth - 1))
        lost = self.lists['outside'] + self.lists['unreached']
        width = self.column * (depth - 1) + LEAF + (LOST if lost else 0)
        self.heading(16, 26, 'title', 'pciplan')
        self.heading(16, 46, '', self.counts())
        legend = self.legend(66)
        top = self.told(72) + 22
        tree_end = self.tree(16, top)
        x, y = 16 + TREE + 20, top
        space_of = lambda r: 'io' if r.digits == 8 else 'mem'
        sections = {(bus, space): regions for bus, space, regions in self.sections}
        for r in lost:
            sections.setdefault((self.root_of(r.slot), space_of(r)), [])
        for bus, space in sorted(sections):
            here = [r for r in lost if (self.root_of(r.slot), space_of(r)) == (bus, space)]
            y = self.section(bus, space, sections[bus, space], here, x, y, width)
        y = self.off(x, y, width)
        wide, high = max(x + AXIS + width + 16, legend + 140), max(tree_end, y) + 16
        head = (f'<svg xmlns="http://www.w3.org/2000/svg" width="{wide}" height="{high}" viewBox="0 0 {wide} {high}">\n'
                f'<style>{STYLE}</style>\n{HATCH}\n'
                f'<rect width="{wide}" height="{high}" style="fill:#fff;stroke:none"/>\n'
                + (COLOURS if self.has_told() else ''))
        return head + '\n'.join(self.boxes + self.words) + '\n</svg>\n'


def look(svg, map_lines):
    """What an SVG breaks: it is well formed, each line of the map is one box's title, boxes of regions overlap only
    where their addresses do, and no words leave the picture."""
    wrong = []
    root = xml.fromstring(svg)
    ns = '{http://www.w3.org/2000/svg}'
    width, height = int(root.get('width')), int(root.get('height'))
    boxes = [(r.find(ns + 'title').text.split('\n')[0], *(int(r.get(a)) for a in ('x', 'y', 'width', 'height')))
             for r in root.iter(ns + 'rect') if r.find(ns + 'title') is not None]
    lines = [line.strip() for line in map_lines if line.startswith('  ') and not line.startswith('  unclaimed ')]
    titles = [b[0] for b in boxes]
    for line in set(lines):
        if titles.count(line) != lines.count(line):
            wrong.append(f'{titles.count(line)} boxes for: {line}')
    placed = [b for b in boxes if b[0] in set(lines)]
    for i, a in enumerate(placed):
        for b in placed[i + 1:]:
            if a[1] < b[1] + b[3] and b[1] < a[1] + a[3] and a[2] < b[2] + b[4] and b[2] < a[2] + a[4]:
                (p, q), (u, v) = ([int(d, 16) for d in c[0].split()[0].split('-')] for c in (a, b))
                if q < u or v < p:
                    wrong.append(f'boxes overlap, addresses do not: {a[0]} | {b[0]}')
    for t in root.iter(ns + 'text'):
        words, x, y = ''.join(t.itertext()), int(t.get('x')), int(t.get('y'))
        size = 10 if 'title' in (t.get('class') or '') else 8 if 'head' in (t.get('class') or '') else 6.03
        left, right = (x - size * len(words), x) if 'axis' in (t.get('class') or '') else (x, x + size * len(words))
        if left < 0 or y < 10 or y > height or (right > width and not re.match(r'\d\d |\w+ ', words)):
            wrong.append(f'words leave the picture: {words}')
    return wrong


def main():
    sys.setrecursionlimit(10000)
    if sys.argv[1] == '--look':
        wrong = look(open(sys.argv[2]).read(), open(sys.argv[3]).read().splitlines())
        print('\n'.join(wrong) or 'fine')
        sys.exit(1 if wrong else 0)
    show, map_lines, faults = (open(path, encoding='latin-1').read().splitlines() for path in sys.argv[1:4])
    sys.stdout.write(Picture(show, map_lines, faults, read_titles(sys.argv[4])).svg())


if __name__ == '__main__':
    main()
