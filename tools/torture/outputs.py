"""Streams as they may be written: the header, and the tiles' texts, in turn or each tile only in its own order."""

import dataclasses
import typing


@dataclasses.dataclass
class Own:
    """What a tile gives: the line of its header, its texts, each with its line, and the line and fault that end it."""

    first: int
    texts: list
    fault: typing.Optional[tuple]

    def may_stop(self, line):
        """Whether memory may be told to have ended at this line."""
        return self.first <= line and (self.fault is None or line <= self.fault[0])


@dataclasses.dataclass
class Stream:
    """A header's text, and what each tile gives.

    The texts of a tile whose number, from 1 on, is in `open_ends` may end at any place.
    """

    header: str
    tiles: list
    in_turn: bool
    open_ends: frozenset = frozenset()

    def order(self):
        lists = [[text.encode() + b"\n" for _, text in own.texts] for own in self.tiles]
        open_ends = {number - 1 for number in self.open_ends}
        return Turns(lists, open_ends) if self.in_turn else Interleaving(lists, open_ends)

    def is_written(self, data):
        """Whether these bytes are the whole stream."""
        order, states, rest = self.followed(data)
        return rest == b"" and any(map(order.may_end, states))

    def has_front(self, data):
        """Whether these bytes are the first ones of the stream."""
        if (self.header.encode() + b"\n").startswith(data):
            return True
        order, states, rest = self.followed(data)
        return any(order.after(state, lambda line: line.startswith(rest)) for state in states) or (rest == b"" and bool(states))

    def followed(self, data):
        """The order, the states in which the lines of these bytes may leave it, and what stands after the last newline."""
        order = self.order()
        header = self.header.encode() + b"\n"
        if not data.startswith(header):
            return order, set(), b""
        *lines, rest = data[len(header):].split(b"\n")
        states = {order.start()}
        for line in lines:
            whole = line + b"\n"
            states = set().union(*(order.after(state, whole.__eq__) for state in states))
        return order, states, rest

    def stopped(self, number, line):
        """The stream where a tile stops at a line for want of memory: those after it may have stopped anywhere."""
        own = self.tiles[number - 1]
        front = dataclasses.replace(own, texts=[(at, text) for at, text in own.texts if at < line])
        tiles = self.tiles[:number - 1] + [front] + self.tiles[number:]
        return dataclasses.replace(self, tiles=tiles, open_ends=frozenset(range(number + 1, len(tiles) + 1)))

    def with_open_ends(self):
        return dataclasses.replace(self, open_ends=frozenset(range(1, len(self.tiles) + 1)))


class Interleaving:
    """Any order that keeps each tile's own; a state has how many texts were written of each tile."""

    def __init__(self, lists, open_ends):
        self.lists = lists
        self.open_ends = open_ends

    def start(self):
        return (0,) * len(self.lists)

    def after(self, state, is_next):
        """The states after one more line, for which `is_next` holds."""
        return {
            state[:at] + (done + 1,) + state[at + 1:]
            for at, done in enumerate(state)
            if done < len(self.lists[at]) and is_next(self.lists[at][done])
        }

    def may_end(self, state):
        return all(done == len(own) or at in self.open_ends for at, (done, own) in enumerate(zip(state, self.lists)))


class Turns:
    """One text of each tile in turn; a state has the round, the tile whose turn it is, and the tiles that have ended."""

    def __init__(self, lists, open_ends):
        self.lists = lists
        self.open_ends = open_ends

    def start(self):
        return 0, 0, frozenset()

    def ends_from(self, state):
        """The states that come of ends alone, this one among them."""
        done, at, ended = state
        found = {state}
        while at < len(self.lists) and len(ended) < len(self.lists):
            if at not in ended:
                if done < len(self.lists[at]) and at not in self.open_ends:
                    return found
                if done < len(self.lists[at]):
                    return found | self.ends_from(self.next_turn(done, at, ended | {at}))
                ended = ended | {at}
            done, at, ended = self.next_turn(done, at, ended)
            found.add((done, at, ended))
        return found

    def next_turn(self, done, at, ended):
        at += 1
        return (done + 1, 0, ended) if at == len(self.lists) else (done, at, ended)

    def after(self, state, is_next):
        found = set()
        for done, at, ended in self.ends_from(state):
            if at not in ended and done < len(self.lists[at]) and is_next(self.lists[at][done]):
                found.add(self.next_turn(done, at, ended))
        return found

    def may_end(self, state):
        return any(len(ended) == len(self.lists) for _, _, ended in self.ends_from(state))
