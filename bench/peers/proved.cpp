// Times the proved library on the workloads, through its C header, under the name PEER. Only the library says which number an entry is:
// outside of the timing its entries are made of the workloads' numbers, and turned back into them before an answer is hashed. So an
// earlier build, with other entries, is held to the same answers.
#include "../../bindings/c/noripliers.h"
#include "calls.hpp"

// Builds up to 0.5.0 have no reader of keys.
#pragma weak nori_key_feed
#pragma weak nori_key_tile

static List out(8 << 20);

// No call of the benchmark may be refused.
static u64 accepted(u8 refused, u64 answer) {
  if (refused) {
    fprintf(stderr, "unexpected refusal %d\n", refused);
    exit(1);
  }
  return answer;
}

// The library's entry of a workload's number; the reverse.
static u64 entry_of(u64 number) {
  Tile t = rmid2xyz(number);
  u64 entry;
  u8 r = nori_entry(t.x, t.y, t.z, &entry);
  return accepted(r, entry);
}
static u64 number_of(u64 entry) {
  Tile t;
  u8 r = nori_entry_tile(entry, &t.x, &t.y, &t.z);
  return accepted(r, xyz2rmid(t.x, t.y, t.z));
}

struct ProvedCalls {
  u64 number(u64 entry) { return number_of(entry); }
  u64 to_id(Tile t) {
    u64 id;
    nori_to_id(t.x, t.y, t.z, &id);
    return id;
  }
  Tile from_id(u64 id) {
    Tile t;
    nori_from_id(id, &t.x, &t.y, &t.z);
    return t;
  }
  u64 xyz2rmid(Tile t) {
    u64 r;
    nori_xyz2rmid(t.x, t.y, t.z, &r);
    return r;
  }
  Tile rmid2xyz(u64 r) {
    Tile t;
    nori_rmid2xyz(r, &t.x, &t.y, &t.z);
    return t;
  }
  Tile quadkey2xyz(const char* s, size_t n) {
    Tile t;
    nori_quadkey2xyz((const u8*)s, n, &t.x, &t.y, &t.z);
    return t;
  }
  bool has_reader() { return nori_key_feed && nori_key_tile; }
  void key_feed(u8 byte, Reader& r) { accepted(nori_key_feed(byte, &r.x, &r.y, &r.count, &r.bad), 0); }
  Tile key_tile(const Reader& r) {
    Tile t;
    return nori_key_tile(r.x, r.y, r.count, r.bad, &t.x, &t.y, &t.z) ? NO_TILE : t;
  }
  size_t xyz2quadkey(Tile t, char* o) {
    u64 n;
    u8 r = nori_xyz2quadkey(t.x, t.y, t.z, (u8*)o, NORI_MAX_ZOOM, &n);
    return accepted(r, n);
  }
  // Up to 0.4.0 the call ended before the digits. On x86-64 a function looks at no argument that it does not name, and the caller takes
  // them away, so such a build is called the same way, and is handed two that it leaves alone.
  Tile parent(Tile t, u32 n) {
    Tile p;
    u8 digits[NORI_MAX_DIGITS], count;
    return nori_parent(t.x, t.y, t.z, n, &p.x, &p.y, &p.z, digits, &count) ? NO_TILE : p;
  }
  size_t neighbors(Tile t, u64* o) {
    u64 n;
    u8 r = nori_neighbors(t.x, t.y, t.z, o, 8, &n);
    return accepted(r, n);
  }
  size_t children(Tile t, u32 to, u64* o) {
    u64 n;
    u8 r = nori_children(t.x, t.y, t.z, to, o, 1 << 14, &n);
    return accepted(r, n);
  }
};

// An operation on the lists of a job, given the index of the list and the memory lent.
template <class Call>
static void run(const Job& j, const char* op, Call call) {
  auto answer = [&](size_t i, u64* o) {
    u64 n;
    u8 r = call(i, o, &n);
    return accepted(r, n);
  };
  run_list(PEER, j, op, "list", out.data(), answer, number_of);
}

int main(int argc, char** argv) {
  auto jobs = load_jobs(argc > 1 ? argv[1] : ".");
  for (Job& j : jobs) {
    size_t places = out.size();
    if (j.kind != "calls")
      for (List* l : {&j.as, &j.bs}) std::transform(l->begin(), l->end(), l->begin(), entry_of);
    if (j.kind == "settle") {
      run(j, "settle", [&](size_t i, u64* o, u64* n) { return nori_simplify(j.a(i), j.na, 0, o, places, n); });
      run(j, "settle_v1", [&](size_t i, u64* o, u64* n) { return nori_simplify_v1(j.a(i), j.na, 0, o, places, n); });
      u8 changed;
      run(j, "merge", [&](size_t i, u64* o, u64* n) { return nori_merge(j.a(i), j.na, 0, o, places, n, &changed); });
    } else if (j.kind == "area") {
      run(j, "union", [&](size_t i, u64* o, u64* n) { return nori_union(j.a(i), j.na, j.b(i), j.nb, o, places, n); });
      run(j, "common", [&](size_t i, u64* o, u64* n) { return nori_common_part(j.a(i), j.na, j.b(i), j.nb, o, places, n); });
      run(j, "minus", [&](size_t i, u64* o, u64* n) { return nori_difference(j.a(i), j.na, j.b(i), j.nb, o, places, n); });
    } else {
      time_calls(PEER, j, ProvedCalls{});
    }
  }
}
