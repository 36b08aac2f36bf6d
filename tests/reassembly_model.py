"""An independent model of document 01's reassembly and of 02's late repeats (P5) and fair slots (P12), written from their text and nothing else."""

HIGHEST = 3  # neighbours are numbered from 0


class Message:
    """An open message: the second it was opened in, its pieces by number, its last number and its head once known."""

    def __init__(self, second):
        self.second = second
        self.pieces = {}
        self.last = None
        self.head = None

    def complete(self):
        return self.last is not None and all(n in self.pieces for n in range(self.last + 1))


class Store:
    """One neighbour's: `most` open messages at most. A piece has 1 to 1,500 bytes and a number from 0 to 127; a message has at most 65,535 bytes.

    The last `keep` finished messages are remembered as (id, second of the finishing piece), the first finished first; with 0 none is.
    """

    def __init__(self, most=4, keep=16):
        self.most, self.keep = most, keep
        self.open = {}
        self.finished = []

    def first(self, ident, kind, expires, second, data, room):
        return self._piece(ident, 0, False, (kind, expires), second, data, room)

    def follow_on(self, ident, number, last, second, data, room):
        if not 1 <= len(data) <= 1500:
            return 50, None
        if not 1 <= number <= 127:
            return 51, None
        return self._piece(ident, number, last, None, second, data, room)

    def sweep(self, second):
        self.open = {i: m for i, m in self.open.items() if not second >= m.second + 30}
        self.finished = [(i, at) for i, at in self.finished if not second >= at + 30]
        return 0

    def remembers(self, ident):
        return any(i == ident for i, _ in self.finished)

    def _finish(self, ident, second):
        """The message is no longer open. Where `keep` are remembered, the first of them is pushed out."""
        del self.open[ident]
        self.finished.append((ident, second))
        del self.finished[:max(0, len(self.finished) - self.keep)]

    def _piece(self, ident, number, last, head, second, data, room):
        if not 1 <= len(data) <= 1500:
            return 50, None
        if self.remembers(ident):
            return 57, None
        old = self.open.get(ident)
        if old is not None:
            if number in old.pieces:
                flag = number == old.last
                same = old.pieces[number] == data and flag == last and (head is None or head == old.head)
                return (54 if same else 55), None
            if old.last is not None and number > old.last:
                return 55, None
            if last and (old.last is not None or any(n > number for n in old.pieces)):
                return 55, None
        elif len(self.open) == self.most:
            return 52, None
        message = old or Message(second)
        if sum(map(len, message.pieces.values())) + len(data) > 65535:
            return 53, None
        message.pieces[number] = data
        before = message.last, message.head
        if last:
            message.last = number
        if head is not None:
            message.head = head
        if not message.complete():
            self.open[ident] = message
            return 0, None
        whole = b"".join(message.pieces[n] for n in range(message.last + 1))
        if len(whole) > room:
            del message.pieces[number]
            message.last, message.head = before
            return 56, None
        self._finish(ident, second)
        return 60, (message.head[0], message.head[1], whole)


class Neighbours:
    """The store of four neighbours: ids, open messages and finished ones are each neighbour's own; one sweep for all, one clock."""

    def __init__(self, keep=16):
        self.stores = [Store(keep=keep) for _ in range(HIGHEST + 1)]

    def first(self, neighbour, *piece):
        return (58, None) if neighbour > HIGHEST else self.stores[neighbour].first(*piece)

    def follow_on(self, neighbour, *piece):
        return (58, None) if neighbour > HIGHEST else self.stores[neighbour].follow_on(*piece)

    def sweep(self, second):
        for store in self.stores:
            store.sweep(second)
        return 0

    def summary(self):
        """How many messages each neighbour has open."""
        return [len(store.open) for store in self.stores]

    def open(self):
        """The open messages, each by neighbour and id."""
        return {(n, ident) for n, store in enumerate(self.stores) for ident in store.open}


class Shared:
    """The store before P12: 16 slots and 64 remembered messages for whoever comes first. Ids are kept apart by neighbour all the same."""

    def __init__(self):
        self.store = Store(most=16, keep=64)
        self.sweep = self.store.sweep

    def open(self):
        return set(self.store.open)

    def first(self, neighbour, ident, *piece):
        return self.store.first((neighbour, ident), *piece)

    def follow_on(self, neighbour, ident, *piece):
        return self.store.follow_on((neighbour, ident), *piece)
