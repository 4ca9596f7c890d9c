// The benchmark of single calls. A peer is a struct of functions; each call's result goes into a checksum, and the loop carries no
// other dependence from call to call. The checksum is the same for all peers, but for the calls that write entries: see time_entries.
// The peer `limit` below is written by hand, refuses as the paper says, writes into lent memory, and is joined to the loop by the
// compiler.
#pragma once
#include "common.hpp"

// What a refused call answers: no tile of the map.
constexpr Tile NO_TILE = {0, 0, 99};

struct Keys {
  std::vector<char> bytes;
  std::vector<u32> at;
};

inline Keys quadkeys(const std::vector<Tile>& tiles) {
  Keys k;
  for (Tile t : tiles) {
    k.at.push_back(k.bytes.size());
    for (int i = t.z - 1; i >= 0; i--) k.bytes.push_back('0' + (t.x >> i & 1) + 2 * (t.y >> i & 1));
  }
  k.at.push_back(k.bytes.size());
  return k;
}

// A reader of keys that is fed byte by byte, as the library's is in numbers.
struct Reader {
  u32 x, y;
  u8 count, bad;
};

inline u64 fold(u64 h, u64 v) { return h + (v ^ v >> 29) * 0x9E3779B97F4A7C15ull; }
inline u64 fold_tile(u64 h, Tile t) { return fold(h, (u64)t.x << 34 ^ (u64)t.y << 5 ^ t.z); }

template <class Op>
inline void time_one(const char* peer, const Job& j, const char* op, size_t calls, Op f) {
  u64 h = 0;
  Timing t = measure([&] {
    h = f();
    keep(h);
  });
  emit(peer, j, op, "call", calls, calls, h, t);
}

// A call on each tile, call(t, out), that writes entries and answers with their count. An earlier build of the library may have other
// numbers as entries. So the hash that is compared is of all entries as xyz2rmid numbers, taken once before the timing, and the
// checksum in the timed loop only uses what was written.
template <class P, class Call>
void time_entries(const char* peer, const Job& j, const char* op, P p, const std::vector<Tile>& tiles, Call call) {
  List out(1 << 14);
  u64 h = NO_ANSWERS;
  for (Tile t : tiles) {
    size_t c = call(t, out.data());
    h = answer_hash(h, out.data(), c, [&](u64 entry) { return p.number(entry); });
  }
  Timing timing = measure([&] {
    u64 used = 0;
    for (Tile t : tiles) {
      size_t c = call(t, out.data());
      used = fold(used, out[0] ^ out[c - 1] ^ c);
    }
    keep(used);
  });
  emit(peer, j, op, "call", tiles.size(), tiles.size(), h, timing);
}

// The first n tiles whose descendants 6 zooms down, the most that `children` is asked for, are no deeper than the workload's tiles.
inline std::vector<Tile> children_input(const std::vector<Tile>& tiles, size_t n) {
  std::vector<Tile> v;
  for (Tile t : tiles)
    if (t.z <= TO_ID_DEEPEST - 6 && v.size() < n) v.push_back(t);
  return v;
}

// A tile of zoom 29 inside each tile. The bits that column and row gain are mixed from the workload's number, so that the steps up vary.
// `parent+28` goes all the way up from there: its answers are all the root, which adds 0 to the checksum.
inline std::vector<Tile> parent_input(const List& rmids) {
  std::vector<Tile> v;
  for (u64 r : rmids) {
    Tile t = rmid2xyz(r);
    u32 down = TO_ID_DEEPEST - t.z, low = (1u << down) - 1;
    u64 mixed = r * 0x9E3779B97F4A7C15ull;
    v.push_back({t.x << down | ((u32)mixed & low), t.y << down | ((u32)(mixed >> 32) & low), (u8)TO_ID_DEEPEST});
  }
  return v;
}

template <class P>
void time_calls(const char* peer, const Job& j, P p) {
  const List& rmids = j.as;
  std::vector<Tile> tiles;
  List ids;
  for (u64 r : rmids) {
    Tile t = rmid2xyz(r);
    tiles.push_back(t);
    ids.push_back(to_id(t.x, t.y, t.z));
  }
  Keys keys = quadkeys(tiles);
  size_t n = tiles.size();
  time_one(peer, j, "to_id", n, [&] {
    u64 h = 0;
    for (Tile t : tiles) h = fold(h, p.to_id(t));
    return h;
  });
  time_one(peer, j, "from_id", n, [&] {
    u64 h = 0;
    for (u64 id : ids) h = fold_tile(h, p.from_id(id));
    return h;
  });
  time_one(peer, j, "xyz2rmid", n, [&] {
    u64 h = 0;
    for (Tile t : tiles) h = fold(h, p.xyz2rmid(t));
    return h;
  });
  time_one(peer, j, "rmid2xyz", n, [&] {
    u64 h = 0;
    for (u64 r : rmids) h = fold_tile(h, p.rmid2xyz(r));
    return h;
  });
  auto read = [&] {
    u64 h = 0;
    for (size_t i = 0; i < n; i++)
      h = fold_tile(h, p.quadkey2xyz(keys.bytes.data() + keys.at[i], keys.at[i + 1] - keys.at[i]));
    return h;
  };
  time_one(peer, j, "quadkey2xyz", n, read);
  // For each byte of the keys: read whole, and fed byte by byte to a reader that tells at the end of each key.
  size_t bytes = keys.bytes.size();
  time_one(peer, j, "quadkey2xyz/byte", bytes, read);
  if (p.has_reader())
    time_one(peer, j, "key_feed/byte", bytes, [&] {
      u64 h = 0;
      for (size_t i = 0; i < n; i++) {
        Reader r = {};
        for (size_t k = keys.at[i]; k < keys.at[i + 1]; k++) p.key_feed(keys.bytes[k], r);
        h = fold_tile(h, p.key_tile(r));
      }
      return h;
    });
  time_one(peer, j, "xyz2quadkey", n, [&] {
    u64 h = 0;
    char buf[32];
    for (Tile t : tiles) {
      size_t len = p.xyz2quadkey(t, buf);
      h = fold(h, (u64)buf[0] << 16 | (u64)buf[len - 1] << 8 | len);
    }
    return h;
  });
  time_one(peer, j, "parent", n, [&] {
    u64 h = 0;
    for (Tile t : tiles) h = fold_tile(h, p.parent(t, t.z / 2));
    return h;
  });
  std::vector<Tile> deep = parent_input(rmids);
  for (int beyond : {0, 6, 28}) {
    std::string op = "parent+" + std::to_string(beyond);
    time_one(peer, j, op.c_str(), n, [&] {
      u64 h = 0;
      for (Tile t : deep) h = fold_tile(h, p.parent(t, beyond));
      return h;
    });
  }
  time_entries(peer, j, "neighbors", p, tiles, [&](Tile t, u64* out) { return p.neighbors(t, out); });
  for (int d : {1, 4, 6}) {
    std::string op = "children+" + std::to_string(d);
    time_entries(peer, j, op.c_str(), p, children_input(tiles, 65536 >> (2 * d)),
                 [&](Tile t, u64* out) { return p.children(t, t.z + d, out); });
  }
}

struct LimitCalls {
  u64 number(u64 entry) { return entry; }
  u64 to_id(Tile t) { return t.z > TO_ID_DEEPEST || (t.x | t.y) >> t.z ? 0 : ::to_id(t.x, t.y, t.z); }
  Tile from_id(u64 id) {
    u32 z = id & 31;
    u64 xy = id >> 5, x = xy & ((2ull << z) - 1), y = xy >> (z + 1);
    if (z > TO_ID_DEEPEST || (x | y) >> z) return NO_TILE;
    return {(u32)x, (u32)y, (u8)z};
  }
  u64 xyz2rmid(Tile t) { return t.z > DEEPEST || (t.x | t.y) >> t.z ? 0 : ::xyz2rmid(t.x, t.y, t.z); }
  Tile rmid2xyz(u64 r) { return r >= ENTRIES ? NO_TILE : ::rmid2xyz(r); }
  // Eight digits a step; the digits are tested on the way.
  Tile quadkey2xyz(const char* s, size_t n) {
    if (n > DEEPEST) return NO_TILE;
    u64 m = 0, bad = 0;
    auto eight = [&](u64 v) {
      v ^= 0x3030303030303030ull;
      bad |= v & 0xfcfcfcfcfcfcfcfcull;
      v = __builtin_bswap64(v);
      v = (v | v >> 6) & 0x000f000f000f000full;
      v = (v | v >> 12) & 0x000000ff000000ffull;
      return (v | v >> 24) & 0xffff;
    };
    u64 v;
    size_t i = 0;
    for (; i + 8 <= n; i += 8) {
      memcpy(&v, s + i, 8);
      m = m << 16 | eight(v);
    }
    size_t r = n - i;
    if (r && n >= 8) {
      memcpy(&v, s + n - 8, 8);
      m = m << 2 * r | (eight(v) & ((1u << 2 * r) - 1));
    } else if (r) {
      v = 0x3030303030303030ull;
      u32 w4 = 0;
      unsigned short w2 = 0;
      size_t at = 0;
      if (r & 4) memcpy(&w4, s, 4), memcpy(&v, &w4, 4), at = 4;
      if (r & 2) memcpy(&w2, s + at, 2), memcpy((char*)&v + at, &w2, 2), at += 2;
      if (r & 1) ((char*)&v)[at] = s[at];
      m = eight(v) >> (16 - 2 * r);
    }
    if (bad) return NO_TILE;
    return {gather(m), gather(m >> 1), (u8)n};
  }
  bool has_reader() { return true; }
  void key_feed(u8 byte, Reader& r) {
    u32 digit = byte ^ 0x30;
    if (r.count >= DEEPEST) {
      r = {0, 0, (u8)(DEEPEST + 1), 0};
    } else if (r.bad || digit > 3) {
      r = {0, 0, (u8)(r.count + 1), 1};
    } else {
      r = {2 * r.x + (digit & 1), 2 * r.y + (digit >> 1), (u8)(r.count + 1), 0};
    }
  }
  Tile key_tile(const Reader& r) { return r.count > DEEPEST || r.bad ? NO_TILE : Tile{r.x, r.y, r.count}; }
  size_t xyz2quadkey(Tile t, char* out) {
    u64 m = morton(t.x, t.y);
    for (int i = t.z - 1; i >= 0; i--) {
      out[i] = '0' + (m & 3);
      m >>= 2;
    }
    return t.z;
  }
  Tile parent(Tile t, u32 n) {
    if (n + 1 > t.z) return NO_TILE;
    return {t.x >> (n + 1), t.y >> (n + 1), (u8)(t.z - 1 - n)};
  }
  size_t neighbors(Tile t, u64* o) {
    u64 w = 1ull << t.z, r = ::xyz2rmid(t.x, t.y, t.z);
    if (t.x > 0 && t.y > 0 && t.x + 1 < w && t.y + 1 < w) {
      o[0] = r + 1, o[1] = r + w, o[2] = r + w + 1, o[3] = r - 1;
      o[4] = r - w, o[5] = r - w - 1, o[6] = r - w + 1, o[7] = r + w - 1;
      return 8;
    }
    return 0;  // the input has no edge tiles
  }
  // Clockwise families, each child's descendants in one quarter.
  size_t children(Tile t, u32 to, u64* o) {
    u32 d = to - t.z;
    size_t n = (size_t)1 << 2 * d;
    for (size_t i = 0; i < n; i += 4) {
      u64 q = i ^ (i >> 1 & 0x5555555555555555ull);  // digits 0, 1, 2, 3 of the walk are quadkey digits 0, 1, 3, 2
      u64 r = ::xyz2rmid((t.x << d) + gather(q), (t.y << d) + gather(q >> 1), to);
      o[i] = r, o[i + 1] = r + 1, o[i + 2] = r + 1 + (1ull << to), o[i + 3] = r + (1ull << to);
    }
    return n;
  }
};
