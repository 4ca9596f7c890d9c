#!/usr/bin/env python3
"""The benchmark's workloads: the same lists on every machine.

usage: workloads.py OUTDIR

Writes little-endian u64 lists of list entries, the xyz2rmid numbers (4^z - 1)/3 + x + y*2^z, and a manifest:
  settle NAME SIZE K FILE           K lists of SIZE entries, any order, to be settled
  area   NAME SIZE K FILE_A FILE_B  K pairs of settled lists in (z, x, y) order; SIZE entries a pair
  calls  NAME SIZE 1 FILE           tiles for the single calls; of zooms 2 to 29, since to_id and the Rust are timed on them
The K lists of a workload are mirror images of one list (x and y of each zoom xor one number's leading bits), so
they cost the same, and a processor cannot learn a small list by heart. A file holds them one after the other.
Integers only, own random numbers: the same bytes on every machine (hashes in workloads.tsv).
"""
import array
import os
import sys

# How many mirror images there are of a list of each size.
IMAGES = {1: 1024, 2: 1024, 4: 1024, 8: 1024, 16: 512, 256: 64, 4096: 8, 65536: 1}
MASK = (1 << 64) - 1
# The deepest zoom, and the deepest that to_id has a number for.
DEEPEST = 30
TO_ID_DEEPEST = 29


class Rng:
    """splitmix64"""

    def __init__(self, seed):
        self.s = seed & MASK

    def next(self):
        self.s = (self.s + 0x9E3779B97F4A7C15) & MASK
        return mix(self.s)

    def below(self, n):
        return (self.next() * n) >> 64

    def shuffle(self, v):
        for i in range(len(v) - 1, 0, -1):
            j = self.below(i + 1)
            v[i], v[j] = v[j], v[i]


def mix(z):
    z = ((z ^ (z >> 30)) * 0xBF58476D1CE4E5B9) & MASK
    z = ((z ^ (z >> 27)) * 0x94D049BB133111EB) & MASK
    return z ^ (z >> 31)


def xyz2rmid(z, x, y):
    return ((1 << (2 * z)) - 1) // 3 + x + (y << z)


def morton(x, y, z):
    m = 0
    for i in range(z):
        m |= ((x >> i) & 1) << (2 * i) | ((y >> i) & 1) << (2 * i + 1)
    return m


def settle(tiles):
    """The settled list of (z, x, y) tiles: sorted by quadtree position, ancestors first, then merged."""
    keyed = sorted((morton(x, y, z) << (2 * (DEEPEST - z)), z, x, y) for z, x, y in set(tiles))
    out = []
    end = 0
    for m, z, x, y in keyed:
        if m < end:
            continue
        end = m + (1 << (2 * (DEEPEST - z)))
        out.append((z, x, y))
        while len(out) >= 4:
            z1, x1, y1 = out[-1]
            if z1 == 0 or any((t[0], t[1] >> 1, t[2] >> 1) != (z1, x1 >> 1, y1 >> 1) for t in out[-4:]):
                break
            del out[-4:]
            out.append((z1 - 1, x1 >> 1, y1 >> 1))
    return sorted(out)


def thin(tiles, n, rng):
    """n tiles of a settled list, still settled: taking tiles away merges nothing."""
    assert len(tiles) >= n, (len(tiles), n)
    v = list(tiles)
    rng.shuffle(v)
    return sorted(v[:n])


def blob(n, z, cx, cy, seed):
    """The n tiles of zoom z nearest to (cx, cy), by a distance with a ragged edge."""
    r = 4
    while r * r < n:
        r += 1
    cand = []
    for x in range(cx - r, cx + r + 1):
        for y in range(cy - r, cy + r + 1):
            ragged = 256 + mix(seed + ((x + 3) // 7) * 100003 + (y + 5) // 7) % 192
            cand.append((((x - cx) ** 2 + (y - cy) ** 2) * ragged, x, y))
    cand.sort()
    return [(z, x, y) for _, x, y in cand[:n]]


def city(n):
    v = blob(n, 14, 8297, 5638, 11)
    Rng(n).shuffle(v)
    return v


def city_ordered(n):
    return sorted(blob(n, 14, 8297, 5638, 11))


def sparse(n):
    """Scattered tiles of zoom 16 to 18 over a country: next to nothing merges."""
    rng = Rng(1000 + n)
    seen = set()
    v = []
    while len(v) < n:
        x, y, up = 131072 + rng.below(16384), 88064 + rng.below(16384), rng.below(3)
        t = (18 - up, x >> up, y >> up)
        if t not in seen:
            seen.add(t)
            v.append(t)
    return v


def nested(n):
    """Walks down from zoom-10 tiles, listing some of the tiles on the way; one entry in eight repeats."""
    rng = Rng(2000 + n)
    v = []
    clusters = max(4, n // 64)
    while len(v) < n:
        if v and rng.below(8) == 0:
            v.append(v[rng.below(len(v))])
            continue
        c = mix(77 + rng.below(clusters))
        z, x, y = 10, 500 + c % 64, 340 + (c >> 32) % 64
        depth = 3 + rng.below(6)
        for step in range(depth):
            d = rng.below(4) if step < 4 else rng.below(5) % 4
            z, x, y = z + 1, 2 * x + (d & 1), 2 * y + (d >> 1)
            if len(v) < n and (step == depth - 1 or rng.below(40) < step * step // 3):
                v.append((z, x, y))
    rng.shuffle(v)
    return v


def full(n):
    """Every tile of one zoom: settles to the root."""
    z = (n.bit_length() - 1) // 2
    v = [(z, x, y) for x in range(1 << z) for y in range(1 << z)]
    Rng(3000 + n).shuffle(v)
    return v


def meet(a, b):
    """Whether a tile of b is in list a, or an ancestor of it is."""
    tiles = set(a)
    return any((z - up, x >> up, y >> up) in tiles for z, x, y in b for up in range(z + 1))


def first_to_meet(make, n, seed):
    """The first pair, from this seed on, that has ground in common: of short lists many have none."""
    while True:
        a, b = make(n, seed)
        if meet(a, b):
            return [a, b]
        seed += 2


def overlap(n):
    """Two ragged cities at zoom 16 with one tile in eight missing, half over each other."""
    return first_to_meet(cities, n, 4000 + n)


def cities(n, seed):
    half = n // 2
    r = 1
    while r * r * 3 < half * 3:
        r += 1
    lists = []
    for k in (0, 1):
        rng = Rng(seed + k)
        raw = [t for t in blob(half * 3, 16, 33188 + k * r, 22552 + k * r // 3, 21 + k) if rng.below(8)]
        lists.append(thin(settle(raw), half, rng))
    return lists


def carve(n):
    """A: tiles of zoom 10 to 12. B: fifteen times as many of zoom 16 to 18, four in five of them inside A."""
    return first_to_meet(holes, n, 5000 + n)


def holes(n, seed):
    rng = Rng(seed)
    na = max(1, n // 16)
    raw = set()
    while len(raw) < na * 2:
        up = rng.below(3)
        raw.add((12 - up, (1800 + rng.below(256)) >> up, (1200 + rng.below(256)) >> up))
    a = thin(settle(raw), na, rng)
    raw = set()
    while len(raw) < (n - na) * 5 // 4:
        z, x, y = a[rng.below(na)]
        if rng.below(5) == 0:
            z, x, y = 11, 900 + rng.below(128), 600 + rng.below(128)
        to = 16 + rng.below(3)
        raw.add((to, (x << (to - z)) + rng.below(1 << (to - z)), (y << (to - z)) + rng.below(1 << (to - z))))
    return [a, thin(settle(raw), n - na, rng)]


def halves(n):
    """One zoom's tiles: of each four siblings two in A, two in B. The union is the root."""
    a, b = [], []
    for z, x, y in full(n):
        (a if (x ^ y) & 1 == 0 else b).append((z, x, y))
    return [sorted(a), sorted(b)]


def calls(n):
    """Tiles of zoom 2 to TO_ID_DEEPEST that touch no edge of the map, where all neighbour rules agree."""
    rng = Rng(6000 + n)
    v = []
    for _ in range(n):
        z = 2 + rng.below(TO_ID_DEEPEST - 1)
        v.append((z, 1 + rng.below((1 << z) - 2), 1 + rng.below((1 << z) - 2)))
    return v


def images(tiles, n, seed, ordered):
    """The list and its mirror images, IMAGES[n] lists one after the other."""
    out = []
    for k in range(IMAGES[n]):
        rng = Rng(seed + k)
        mx, my = (rng.below(1 << DEEPEST), rng.below(1 << DEEPEST)) if k else (0, 0)
        v = [(z, x ^ mx >> (DEEPEST - z), y ^ my >> (DEEPEST - z)) for z, x, y in tiles]
        if ordered:
            v.sort()
        elif k:
            rng.shuffle(v)
        out += v
    return out


def list_hash(entries):
    h = 0xCBF29CE484222325
    for v in entries:
        h = (((h << 5 | h >> 59) & MASK) ^ v) * 0x9E3779B97F4A7C15 & MASK
    return h


def main():
    out = sys.argv[1]
    os.makedirs(out, exist_ok=True)
    manifest, hashes = [], []

    def write(name, tiles):
        entries = [xyz2rmid(*t) for t in tiles]
        data = array.array("Q", entries)
        if sys.byteorder == "big":
            data.byteswap()
        with open(os.path.join(out, name), "wb") as f:
            data.tofile(f)
        hashes.append(f"{name}\t{len(entries)}\t{list_hash(entries):016x}")
        return name

    for n, k in IMAGES.items():
        # A zoom has 1, 4, 16, .. tiles: no other size fills one.
        fills = n.bit_length() % 2 == 1
        for make in (city, city_ordered, sparse, nested, full) if fills else (city, city_ordered, sparse, nested):
            v = make(n)
            assert len(v) == n
            name = make.__name__
            v = images(v, n, 7000, make is city_ordered)
            manifest.append(f"settle {name} {n} {k} " + write(f"{name}-{n}.u64", v))
        # Two lists of one entry together would be one list.
        for make in () if n == 1 else (overlap, carve, halves) if fills else (overlap, carve):
            a, b = make(n)
            assert len(a) + len(b) == n and a == settle(a) and b == settle(b)
            name = make.__name__
            a, b = images(a, n, 8000, True), images(b, n, 8000, True)
            manifest.append(
                f"area {name} {n} {k} " + write(f"{name}-{n}.a.u64", a) + " " + write(f"{name}-{n}.b.u64", b)
            )
    manifest.append("calls tiles 65536 1 " + write("calls-65536.u64", calls(65536)))
    with open(os.path.join(out, "manifest"), "w") as f:
        f.write("\n".join(manifest) + "\n")
    with open(os.path.join(out, "hashes.tsv"), "w") as f:
        f.write("\n".join(hashes) + "\n")


if __name__ == "__main__":
    main()
