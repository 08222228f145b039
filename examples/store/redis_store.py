"""Cells in Redis: a node's cells lie at one of several servers, the one of the node's number modulo how many there are. A look is
one command, and so is a put: a script, which a server runs as a whole. A server knows its generation, drawn at set-up; without
it, its data is gone."""
from __future__ import annotations

import secrets
from collections import defaultdict
from typing import Iterable

import redis
import track

from stores import Held, NoData, NoHandset, Occupied, State, StoreError, Superseded, Late, Ticket, Unreachable, read_word, unpacked

# In each script KEYS[1] and ARGV[1] are the generation's key and what it has to be.
GUARD = "if redis.call('GET', KEYS[1]) ~= ARGV[1] then return {'no data'} end\n"
LOOK = GUARD + "return {'made', redis.call('GET', KEYS[2]), redis.call('INCR', KEYS[3])}"
# KEYS: handset, cell, and where visits are recorded their count; ARGV: epoch, step, state, word, node.
PUT = GUARD + """
local held = redis.call('HMGET', KEYS[2], 'epoch', 'step', 'state', 'ticket')
local epoch, step = tonumber(held[1] or 0), tonumber(held[2] or -1)
if epoch > tonumber(ARGV[2]) then return {'superseded'} end
if epoch == tonumber(ARGV[2]) and step == tonumber(ARGV[3]) and held[3] == ARGV[4] then return {'made', held[4]} end
if step >= tonumber(ARGV[3]) then return {'late'} end
local ticket = ''
if KEYS[4] then ticket = ARGV[6] .. ' ' .. redis.call('INCR', KEYS[4]) end
redis.call('HSET', KEYS[2], 'epoch', ARGV[2], 'step', ARGV[3], 'state', ARGV[4], 'ticket', ticket)
if ARGV[5] == '0' then redis.call('DEL', KEYS[3]) else redis.call('SET', KEYS[3], ARGV[5]) end
return {'made', ticket}"""
DRAW = GUARD + "return {'made', redis.call('INCR', KEYS[2])}"
# KEYS: handset, cells; ARGV: epoch, step, state, words. An opening that comes late finds the handset, and writes nothing.
OPEN = GUARD + """
if redis.call('HEXISTS', KEYS[2], 'step') == 1 then return {'made'} end
redis.call('HSET', KEYS[2], 'epoch', ARGV[2], 'step', ARGV[3], 'state', ARGV[4], 'ticket', '')
for at = 3, #KEYS do redis.call('SET', KEYS[at], ARGV[at + 2]) end
return {'made'}"""
END_OPENING = GUARD + "redis.call('SET', KEYS[2], 'open') return {'made'}"
# KEYS: handset; ARGV: epoch, holder.
RAISE = GUARD + """
local held = redis.call('HMGET', KEYS[2], 'epoch', 'holder', 'step', 'state', 'ticket')
local epoch = tonumber(held[1] or 0)
local again = epoch == tonumber(ARGV[2]) and held[2] == ARGV[3]
if epoch >= tonumber(ARGV[2]) and not again then return {'superseded'} end
redis.call('HSET', KEYS[2], 'epoch', ARGV[2], 'holder', ARGV[3])
return {'made', held[3], held[4], held[5]}"""

CAUSES = {
    b"no data": (NoData, "{} has no data, or another's"),
    b"superseded": (Superseded, "{}: the handset is held by a later process"),
    b"late": (Late, "{}: a later put of the handset stands"),
}


class Server:
    """One server, and the generation of its data."""

    def __init__(self, address: str, generation: str, name: str, timeout: float) -> None:
        host, port = address.rsplit(":", 1)
        self.address, self.generation, self.name = address, generation, name
        self.client = redis.Redis(host, int(port), socket_timeout=timeout, socket_connect_timeout=timeout)
        self.scripts = {text: self.client.register_script(text) for text in (LOOK, PUT, DRAW, OPEN, END_OPENING, RAISE)}

    def key(self, *parts: object) -> str:
        return ":".join(map(str, (self.name, *parts)))

    def ask(self, request, *arguments, **named):
        """Makes a request once."""
        try:
            return request(*arguments, **named)
        except (redis.ConnectionError, redis.TimeoutError) as error:
            raise Unreachable(f"{self.address}: {error}") from None
        except redis.RedisError as error:
            raise StoreError(f"{self.address}: {error}") from None

    def run(self, text: str, keys: list, arguments: list = []) -> list:
        """What a script answers after its first word."""
        told = self.ask(self.scripts[text], keys=[self.key("generation"), *keys], args=[self.generation, *arguments])
        if told[0] in CAUSES:
            cause, words = CAUSES[told[0]]
            raise cause(words.format(self.address))
        return told[1:]

    def read(self, key: str):
        generation, value = self.ask(self.client.mget, self.key("generation"), key)
        self.test(generation)
        return value

    def test(self, generation) -> None:
        if generation != self.generation.encode():
            raise NoData(CAUSES[b"no data"][1].format(self.address))


def read_ticket(value) -> Ticket:
    return tuple(map(int, value.split())) if value else None


class RedisStore:
    """See stores.Store. A ticket is a node, and the how-manieth visit of it."""

    def __init__(self, servers: list[Server], recording: bool) -> None:
        self.servers, self.recording = servers, recording

    def at(self, node: int) -> Server:
        return self.servers[node % len(self.servers)]

    def look(self, cell: track.Cell) -> tuple[int, Ticket]:
        server, ticket = self.at(cell.node), None
        key = server.key("cell", cell)
        if self.recording:
            value, count = server.run(LOOK, [key, server.key("visits", cell.node)])
            ticket = (cell.node, count)
        else:
            value = server.read(key)
        return (0 if value is None else read_word(value, cell)), ticket

    def put(self, put: track.Put, sub: int, state: State) -> Ticket:
        node = put.cell.node
        server = self.at(node)
        keys = [server.key("handset", sub), server.key("cell", put.cell)]
        if self.recording:
            keys.append(server.key("visits", node))
        return read_ticket(server.run(PUT, keys, [state.epoch, state.step, state.packed(), put.word, node])[0])

    def draw_number(self) -> int:
        server = self.servers[0]
        return server.run(DRAW, [server.key("subscribers")])[0] - 1

    def open(self, sub: int, puts: Iterable[track.Put], state: State) -> None:
        by_server = defaultdict(list)
        for put in puts:
            by_server[self.at(put.cell.node)].append(put)
        for server, some in by_server.items():
            keys = [server.key("handset", sub), *(server.key("cell", put.cell) for put in some)]
            server.run(OPEN, keys, [state.epoch, state.step, state.packed(), *(put.word for put in some)])
        server = self.at(sub)
        server.run(END_OPENING, [server.key("open", sub)])

    def is_open(self, sub: int) -> bool:
        server = self.at(sub)
        return server.read(server.key("open", sub)) is not None

    def highest_epoch(self, sub: int) -> int:
        found = []
        for server in self.servers:
            with server.client.pipeline() as both:
                both.get(server.key("generation")).hget(server.key("handset", sub), "epoch")
                generation, epoch = server.ask(both.execute)
            server.test(generation)
            found.append(int(epoch or 0))
        if not any(found):
            raise NoHandset(f"there is no subscriber {sub}")
        return max(found)

    def raise_epoch(self, sub: int, epoch: int, holder: str) -> Held:
        """At one server after another, always in the same order: so of two that raise to the same epoch one wins, and whoever goes
        through sees every put that was made before its raise, and none is made after it."""
        latest = None
        for server in self.servers:
            step, state, ticket = server.run(RAISE, [server.key("handset", sub)], [epoch, holder])
            if step is not None and (latest is None or int(step) > latest.state.step):
                latest = Held(State(epoch, int(step), unpacked(state)), read_ticket(ticket))
        if latest is None:
            raise NoHandset(f"there is no subscriber {sub}")
        return latest

    def close(self) -> None:
        for server in self.servers:
            server.client.close()


def set_up(addresses: list[str], name: str) -> list:
    """Draws the generation of each server."""
    said = []
    for address in addresses:
        server = Server(address, secrets.token_hex(16), name, 5.0)
        if not server.ask(server.client.set, server.key("generation"), server.generation, nx=True):
            raise Occupied(f"{address} has a directory {name!r}")
        said.append({"address": address, "generation": server.generation})
    return said


def connect(servers: list, name: str, timeout: float, recording: bool) -> RedisStore:
    return RedisStore([Server(it["address"], it["generation"], name, timeout) for it in servers], recording)
