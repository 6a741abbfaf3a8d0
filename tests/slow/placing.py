"""Places on a board as firmware gives them: windows that nest, and in them BARs and ROMs side by side."""

from model import IO, MEM, PAGE, bit, close_window, put_bar, put_rom, put_window

STARTS = {'io': 0x1000, 'mem': 0xE0000000, 'pref': 0xC0000000}


def up_to(address, size):
    """The least multiple of a size from an address on."""
    return (address + size - 1) // size * size


def class_of(part, has_pref, is_high):
    """Where a BAR or ROM goes: I/O, memory, or prefetchable memory, which may begin at 4 GB."""
    if part.space == IO:
        return 'io'
    if part.prefetchable and has_pref and (part.wide or not is_high):
        return 'pref'
    return 'mem'


class Placer:
    """Gives addresses, from low to high."""

    def __init__(self, draw, board):
        self.draw = draw
        self.board = board
        bridges = [f for f in board.functions if f.is_bridge]
        self.is_high = draw.randrange(2) == 0
        self.nexts = dict(STARTS, pref=0x100000000 if self.is_high else STARTS['pref'])
        self.with_pref = all(any(w.window == 'pref' and (w.wide or not self.is_high) for w in b.windows())
                             for b in bridges)

    def take(self, kind, size):
        """The next free range of a class."""
        address = up_to(self.nexts[kind], size)
        self.nexts[kind] = address + size
        return address

    def place_parts(self, f):
        """Places BARs and ROM of a function."""
        for part in f.bars() + f.rom():
            kind = class_of(part, self.with_pref, self.is_high)
            address = self.take(kind, part.size)
            top = part.last if part.kind == 'rom' else 0
            if kind == 'io' and not bit(part.shown(f.probe), 31):
                address &= 0xFFFF & ~(part.size - 1)
            elif not part.wide:
                address &= 0xFFFFFFFF
            if part.kind == 'rom':
                put_rom(f, address, top >= 0 and self.draw.randrange(3) > 0)
            else:
                put_bar(f, part, address)

    def place_bus(self, bus):
        """Places all on a bus and behind it."""
        for f in self.board.functions:
            if f.slot[0] != bus:
                continue
            self.place_parts(f)
            if f.is_bridge and f.secondary > bus:
                self.place_behind(f)

    def place_behind(self, bridge):
        """Opens a bridge's windows over what is behind it."""
        firsts = {}
        for kind in PAGE:
            self.nexts[kind] = firsts[kind] = up_to(self.nexts[kind], PAGE[kind])
        self.place_bus(bridge.secondary)
        for window in bridge.windows():
            kind = window.window
            if self.draw.randrange(8) == 0:
                self.nexts[kind] += PAGE[kind]
            self.nexts[kind] = up_to(self.nexts[kind], PAGE[kind])
            narrow = (1 << (16 if kind == 'io' else 32)) if not window.wide else 1 << 64
            if firsts[kind] < self.nexts[kind] <= narrow:
                put_window(bridge, kind, firsts[kind], self.nexts[kind] - 1)
            else:
                close_window(bridge, kind)


def place_tidily(draw, board):
    """Gives everything on a board a place, root by root."""
    placer = Placer(draw, board)
    for root in board.roots:
        placer.place_bus(root)
        if draw.randrange(2) == 0:
            placer.nexts[MEM] = up_to(placer.nexts[MEM], 0x10000000)
