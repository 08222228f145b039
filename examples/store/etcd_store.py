"""Cells in etcd: one key a cell, over as many members as there are, by the gateway that speaks JSON. A look is a linearizable
read, and a put one transaction: it compares the epoch and the handset's revision with what they were, and writes handset and
cell. So a request whose answer was lost is made again without harm, and the revisions of the store are the order of all
visits."""
from __future__ import annotations

import base64
import http.client
import json
import random
from typing import Iterable, Optional

import track

from stores import Held, Late, NoHandset, Occupied, State, StoreError, Superseded, Ticket, Unreachable, read_word, unpacked


def encoded(value: str | bytes) -> str:
    return base64.b64encode(value.encode() if isinstance(value, str) else value).decode()


def decoded(value: str) -> bytes:
    return base64.b64decode(value)


class Members:
    """A kept connection to one of the members; after a failure the next request goes to another one."""

    def __init__(self, addresses: list[str], timeout: float) -> None:
        self.addresses, self.timeout = addresses, timeout
        self.at, self.connection = random.randrange(len(addresses)), None

    def ask(self, path: str, body: dict) -> dict:
        """Makes a request once."""
        address = self.addresses[self.at]
        try:
            if self.connection is None:
                host, port = address.rsplit(":", 1)
                self.connection = http.client.HTTPConnection(host, int(port), timeout=self.timeout)
            self.connection.request("POST", f"/v3/kv/{path}", json.dumps(body), {"Content-Type": "application/json"})
            reply = self.connection.getresponse()
            told = reply.read()
        except (OSError, http.client.HTTPException) as error:
            self.leave()
            raise Unreachable(f"{address}: {error or type(error).__name__}") from None
        if reply.status == 200:
            return json.loads(told)
        self.leave()
        if reply.status >= 500 or reply.status == 408:
            raise Unreachable(f"{address}: {told[:120].decode(errors='replace')}")
        raise StoreError(f"{address}: {told[:120].decode(errors='replace')}")

    def leave(self) -> None:
        self.close()
        self.at = (self.at + 1) % len(self.addresses)

    def close(self) -> None:
        if self.connection is not None:
            self.connection.close()
        self.connection = None


def writes(key: str, value: str | bytes) -> dict:
    return {"requestPut": {"key": encoded(key), "value": encoded(value)}}


def reads(key: str) -> dict:
    return {"requestRange": {"key": encoded(key)}}


def holds(key: str, value: str) -> dict:
    return {"key": encoded(key), "target": "VALUE", "result": "EQUAL", "value": encoded(value)}


def changed_at(key: str, revision: int) -> dict:
    """The key was last written at this revision; 0: it isn't there."""
    return {"key": encoded(key), "target": "MOD", "result": "EQUAL", "mod_revision": str(revision)}


def written(key: str, times: int) -> dict:
    """The key was written so many times."""
    return {"key": encoded(key), "target": "VERSION", "result": "EQUAL", "version": str(times)}


def found(response: dict) -> tuple[Optional[bytes], int]:
    """The value of a key that was read, and the revision of its last writing."""
    entries = response.get("response_range", response).get("kvs")
    if not entries:
        return None, 0
    return decoded(entries[0].get("value", "")), int(entries[0]["mod_revision"])


class EtcdStore:
    """See stores.Store. A ticket is a revision, with 0 for the put that made it and 1 for a look after it."""

    def __init__(self, members: Members, name: str) -> None:
        self.members, self.name = members, name

    def key(self, *parts: object) -> str:
        return "/".join(map(str, (self.name, *parts)))

    def transact(self, compare: list, success: list, failure: list) -> dict:
        return self.members.ask("txn", {"compare": compare, "success": success, "failure": failure})

    def read(self, key: str) -> tuple[Optional[bytes], int, int]:
        """A value, the revision of its last writing, and the store's."""
        told = self.members.ask("range", {"key": encoded(key)})
        return *found(told), int(told["header"]["revision"])

    def read_all(self, keys: list) -> list:
        """Values, each with the revision of its last writing, all at once."""
        return [found(it) for it in self.transact([], [reads(key) for key in keys], [])["responses"]]

    def look(self, cell: track.Cell) -> tuple[int, Ticket]:
        value, _, revision = self.read(self.key("cell", cell))
        return (0 if value is None else read_word(value, cell)), (revision, 1)

    def put(self, put: track.Put, sub: int, state: State) -> Ticket:
        """The handset's key is written once at the opening and once with each put: so before a put it was written as often as its
        step says."""
        held, epoch, cell = self.key("handset", sub), self.key("epoch", sub), self.key("cell", put.cell)
        value = f"{state.step} {state.packed().hex()}"
        write = writes(cell, str(put.word)) if put.word else {"requestDeleteRange": {"key": encoded(cell)}}
        told = self.transact(
            [holds(epoch, str(state.epoch)), written(held, state.step)], [writes(held, value), write], [reads(epoch), reads(held)])
        if told.get("succeeded"):
            return int(told["header"]["revision"]), 0
        (now, _), (stands, made) = map(found, told["responses"])
        if now != str(state.epoch).encode():
            raise Superseded(f"the handset of {sub} is held by a later process")
        if stands != value.encode():
            raise Late(f"a later put of the handset of {sub} stands")
        return made, 0

    def draw_number(self) -> int:
        """Counts in a key, which is written only where nobody wrote it since it was read."""
        key = self.key("subscribers")
        while True:
            value, revision, _ = self.read(key)
            number = int(value or 0)
            if self.transact([changed_at(key, revision)], [writes(key, str(number + 1))], []).get("succeeded"):
                return number

    def open(self, sub: int, puts: Iterable[track.Put], state: State) -> None:
        """All of it in one transaction, so that an opening that comes late writes nothing."""
        held = self.key("handset", sub)
        success = [writes(held, f"{state.step} {state.packed().hex()}"), writes(self.key("epoch", sub), str(state.epoch))]
        success += [writes(self.key("cell", put.cell), str(put.word)) for put in puts]
        self.transact([changed_at(held, 0)], [*success, writes(self.key("open", sub), "open")], [])

    def is_open(self, sub: int) -> bool:
        return self.read(self.key("open", sub))[0] is not None

    def highest_epoch(self, sub: int) -> int:
        value = self.read(self.key("epoch", sub))[0]
        if value is None:
            raise NoHandset(f"there is no subscriber {sub}")
        return int(value)

    def raise_epoch(self, sub: int, epoch: int, holder: str) -> Held:
        """Writes epoch and holder where a lower epoch stands; then no older process's put is made, and the state that is read is
        the latest."""
        keys = [self.key(part, sub) for part in ("epoch", "holder", "handset")]
        (value, revision), (held_by, _), (handset, made) = self.read_all(keys)
        if value is None or handset is None:
            raise NoHandset(f"there is no subscriber {sub}")
        if (int(value), held_by) != (epoch, holder.encode()):
            if int(value) >= epoch:
                raise Superseded(f"the handset of {sub} is held by a later process")
            told = self.transact([changed_at(keys[0], revision)], [writes(keys[0], str(epoch)), writes(keys[1], holder)], [])
            if not told.get("succeeded"):
                raise Superseded(f"another process takes the handset of {sub} over")
            handset, made = self.read_all(keys)[2]
        step, state = handset.split(b" ")
        return Held(State(epoch, int(step), unpacked(bytes.fromhex(state.decode()))), (made, 0) if int(step) else None)

    def close(self) -> None:
        self.members.close()


def set_up(addresses: list[str], name: str) -> list:
    """Writes that a directory stands there."""
    members, key = Members(addresses, 5.0), f"{name}/set-up"
    told = members.ask("txn", {"compare": [changed_at(key, 0)], "success": [writes(key, "done")], "failure": []})
    members.close()
    if not told.get("succeeded"):
        raise Occupied(f"there is a directory {name!r}")
    return [{"address": address} for address in addresses]


def connect(servers: list, name: str, timeout: float, recording: bool) -> EtcdStore:
    """`recording` makes no difference: revisions are there."""
    return EtcdStore(Members([it["address"] for it in servers], timeout), name)
