"""Networks for the benches and the checks, and inputs without calls that have them."""


def edges(kind, n, weight):
    """The edges of a network of n nodes, each of this weight, or of a weight that the function gives."""
    w = weight if callable(weight) else lambda a, b: weight
    if kind == "path":
        pairs = [(v - 1, v) for v in range(1, n)]
    elif kind == "ring":
        pairs = [(v, (v + 1) % n) for v in range(n)] if n > 2 else [(v - 1, v) for v in range(1, n)]
    elif kind == "star":
        pairs = [(0, v) for v in range(1, n)]
    elif kind == "grid":
        side = max(1, int(n**0.5))
        pairs = [(v, v + 1) for v in range(n) if v % side + 1 < side and v + 1 < n]
        pairs += [(v, v + side) for v in range(n) if v + side < n]
    elif kind == "complete":
        pairs = [(a, b) for a in range(n) for b in range(a + 1, n)]
    elif kind == "random":
        state = n
        pairs = []
        for v in range(1, 4 * n):
            state = (state * 6364136223846793005 + 1442695040888963407) % 2**64
            a, b = (v, (state >> 33) % v) if v < n else ((state >> 33) % n, (state >> 45) % n)
            pairs += [(a, b)] if a != b else []
    else:
        raise SystemExit(f"no such network: {kind}")
    return [(a, b, w(a, b)) for a, b in pairs]


def text(n, k, es):
    """The input of a network, with one subscriber and no calls; in format 2 where format 1 has no room for so many nodes."""
    lines = ["track 1" if n <= 256 else "track 2", f"nodes {n}", f"k {k}"]
    lines += [f"edge {a} {b} {w}" for a, b, w in es]
    lines += ["sub 0", "callers 0"]
    return "\n".join(lines) + "\n"


KINDS = ["path", "ring", "star", "grid", "complete"]
