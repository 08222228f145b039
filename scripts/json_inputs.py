"""Inputs as JSON: the text that `fromjson` makes of one, with the part of the JSON that each line says, and what is wrong with it.
From docs/FORMATS.md, "JSON"."""
import json
import math

from texts import MOST, Fault

KEYS = ("track", "nodes", "k", "callers", "edges", "subs", "calls", "order")
MOST_NUMBER = 999999999999999999
MOST_NESTED = 127
CALLS = {"move": 2, "find": 3, "off": 1, "on": 1}  # how many numbers follow the word


class NoNumber(str):
    """A number as it was written, which is none of an input: one with a point, an exponent or a sign."""


def integer(written):
    return NoNumber(written) if written.startswith("-") or int(written) >= 1 << 64 else int(written)


def decimal(written):
    if math.isinf(float(written)):
        raise ValueError(f"{written} is past the largest float")
    return NoNumber(written)


def no_constant(written):
    raise ValueError(f"{written} is no JSON")


def depth_of(value):
    """How deep brackets are nested."""
    if isinstance(value, (list, dict)):
        inner = value.values() if isinstance(value, dict) else value
        return 1 + max(map(depth_of, inner), default=0)
    return 0


def strings_of(value):
    if isinstance(value, dict):
        for key, inner in value.items():
            yield key
            yield from strings_of(inner)
    elif isinstance(value, list):
        for inner in value:
            yield from strings_of(inner)
    elif isinstance(value, str):
        yield value


def read_json(raw):
    """The value of the bytes; a Fault where they are no JSON that is read."""
    try:
        value = json.loads(raw.decode("utf-8"), parse_int=integer, parse_float=decimal, parse_constant=no_constant)
        if depth_of(value) > MOST_NESTED:
            raise ValueError(f"brackets are nested more than {MOST_NESTED} deep")
        for text in strings_of(value):
            text.encode("utf-8")
    except UnicodeError as bad:
        raise Fault(0, "json", f"a text isn't UTF-8: {bad.reason}") from None
    except (ValueError, RecursionError) as bad:
        raise Fault(0, "json", f"it can't be read as JSON: {bad}") from None
    return value


def shape_fault(why):
    return Fault(0, "shape", why)


def is_number(value):
    return isinstance(value, int) and not isinstance(value, bool) and value <= MOST_NUMBER


def written(value):
    """A value as JSON, cut where it is long."""
    text = value if isinstance(value, NoNumber) else json.dumps(value)
    return text if len(text) <= 60 else text[:57] + "..."


def number_at(path, value):
    if not is_number(value):
        raise shape_fault(f"{path} is {written(value)}, and has to be a whole number from 0 to {MOST_NUMBER}")
    return str(value)


def numbers_at(path, value, count):
    if not isinstance(value, list) or len(value) != count:
        raise shape_fault(f"{path} is {written(value)}, and has to be a list of {count} numbers")
    return [number_at(f"{path}[{at}]", each) for at, each in enumerate(value)]


def list_at(key, value):
    if not isinstance(value, list):
        raise shape_fault(f"{key} is {written(value)}, and has to be a list")
    return list(enumerate(value))


def call_line(path, call):
    word = call[0] if isinstance(call, list) and call else None
    if not isinstance(word, str) or isinstance(word, NoNumber) or word not in CALLS:
        raise shape_fault(f"{path} is {written(call)}, and has to be a list that begins with \"move\", \"find\", \"off\" or \"on\"")
    if len(call) != CALLS[word] + 1:
        raise shape_fault(f"{path} is {written(call)}, and '{word}' has {CALLS[word]} numbers after it")
    return " ".join([word, *(number_at(f"{path}[{at}]", each) for at, each in enumerate(call[1:], 1))])


def test_keys(value):
    if not isinstance(value, dict):
        raise shape_fault(f"the value is {written(value)}, and has to be an object")
    unknown = [key for key in value if key not in KEYS]
    missing = [key for key in KEYS if key not in value and key != "order"]
    if unknown:
        raise shape_fault(f"it has a key {json.dumps(unknown[0])}, which no input has")
    if missing:
        raise shape_fault(f"it has no key \"{missing[0]}\"")


def lines_of(value):
    """The lines of the text that `fromjson` makes of a value, each with the part of the JSON that it says."""
    test_keys(value)
    lines = [(f"{key} {number_at(key, value[key])}", key) for key in ("track", "nodes", "k")]
    for at, edge in list_at("edges", value["edges"]):
        lines.append(("edge " + " ".join(numbers_at(f"edges[{at}]", edge, 3)), f"edges[{at}]"))
    lines += [(f"sub {number_at(f'subs[{at}]', node)}", f"subs[{at}]") for at, node in list_at("subs", value["subs"])]
    lines.append((f"callers {number_at('callers', value['callers'])}", "callers"))
    lines += [(call_line(f"calls[{at}]", call), f"calls[{at}]") for at, call in list_at("calls", value["calls"])]
    order = [number_at(f"order[{at}]", actor) for at, actor in list_at("order", value.get("order", []))]
    for at in range(0, len(order), MOST["turns"]):
        row = order[at:at + MOST["turns"]]
        lines.append(("order " + " ".join(row), f"order[{at}] to order[{at + len(row) - 1}]"))
    return lines
