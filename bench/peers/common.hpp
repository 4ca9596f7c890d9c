// What the C++ runners share: files, tile arithmetic, timing, result lines.
#pragma once
#include <algorithm>
#include <cstdint>
#include <cstdio>
#include <cstdlib>
#include <cstring>
#include <ctime>
#include <fstream>
#include <string>
#include <vector>

using u64 = uint64_t;
using u32 = uint32_t;
using u8 = uint8_t;
using List = std::vector<u64>;

struct Tile {
  u32 x, y;
  u8 z;
};

// The deepest zoom, and how many tiles there are down to it: a list entry is an xyz2rmid number, and all numbers below this are.
constexpr u32 DEEPEST = 30;
constexpr u64 ENTRIES = (1ull << 2 * (DEEPEST + 1)) / 3;
// The deepest zoom of to_id: at the next one its numbers have more than 64 bits.
constexpr u32 TO_ID_DEEPEST = 29;

inline u64 to_id(u32 x, u32 y, u32 z) { return (((u64)y << (z + 1)) + x) << 5 | z; }
// How many tiles the zooms above z have.
inline u64 tiles_above(u32 z) { return 0x1555555555555555ull >> (62 - 2 * z); }
inline u64 xyz2rmid(u32 x, u32 y, u32 z) { return tiles_above(z) + x + ((u64)y << z); }
// One instruction, as 63 - clz is not.
inline u32 top_bit(u64 v) { return __builtin_clzll(v) ^ 63; }
// The zoom of a number: 3r + 1 lies in [4^z, 4^(z+1)).
inline u32 rmid_zoom(u64 r) { return top_bit(3 * r + 1) / 2; }
inline Tile rmid2xyz(u64 r) {
  u32 z = rmid_zoom(r);
  u64 o = r - tiles_above(z);
  return {(u32)(o & ((1ull << z) - 1)), (u32)(o >> z), (u8)z};
}
// The low 32 bits of v at the even places; the reverse.
inline u64 spread(u64 v) {
  v = (v | v << 16) & 0x0000ffff0000ffffull;
  v = (v | v << 8) & 0x00ff00ff00ff00ffull;
  v = (v | v << 4) & 0x0f0f0f0f0f0f0f0full;
  v = (v | v << 2) & 0x3333333333333333ull;
  return (v | v << 1) & 0x5555555555555555ull;
}
inline u32 gather(u64 v) {
  v &= 0x5555555555555555ull;
  v = (v | v >> 1) & 0x3333333333333333ull;
  v = (v | v >> 2) & 0x0f0f0f0f0f0f0f0full;
  v = (v | v >> 4) & 0x00ff00ff00ff00ffull;
  v = (v | v >> 8) & 0x0000ffff0000ffffull;
  return (u32)(v | v >> 16);
}
// The quadkey digits as one number, two bits a digit.
inline u64 morton(u32 x, u32 y) { return spread(x) | spread(y) << 1; }
// A number that rises in list order: z, x, y. It lies in [4^z, 2*4^z).
inline u64 order_key(Tile t) { return ((1ull << t.z) + t.x) << t.z | t.y; }
inline u64 order_key_entry(u64 k) {
  u32 z = top_bit(k) / 2, mask = (1u << z) - 1;
  return xyz2rmid(k >> z & mask, k & mask, z);
}

constexpr u64 NO_ANSWERS = 0xCBF29CE484222325ull;
// The hash of the answers so far and this one, n entries at v. number(e) is the xyz2rmid number of the peer's entry e.
template <class Number>
u64 answer_hash(u64 h, const u64* v, size_t n, Number number) {
  h ^= n;
  for (size_t i = 0; i < n; i++) h = ((h << 5 | h >> 59) ^ number(v[i])) * 0x9E3779B97F4A7C15ull;
  return h;
}
inline u64 same(u64 entry) { return entry; }

inline List load(const std::string& path) {
  std::ifstream f(path, std::ios::binary);
  std::string s((std::istreambuf_iterator<char>(f)), {});
  List v(s.size() / 8);
  memcpy(v.data(), s.data(), v.size() * 8);
  return v;
}

// k lists (pairs of lists, for kind area) one after the other; na and nb entries each.
struct Job {
  std::string kind, name, size;
  size_t k = 1, na = 0, nb = 0;
  List as, bs;
  const u64* a(size_t i) const { return as.data() + i * na; }
  const u64* b(size_t i) const { return bs.data() + i * nb; }
  size_t n() const { return na + nb; }
};

inline std::vector<Job> load_jobs(const std::string& dir) {
  std::ifstream f(dir + "/manifest");
  std::vector<Job> jobs;
  Job j;
  std::string file;
  while (f >> j.kind >> j.name >> j.size >> j.k >> file) {
    j.as = load(dir + "/" + file);
    j.bs.clear();
    if (j.kind == "area") {
      f >> file;
      j.bs = load(dir + "/" + file);
    }
    j.na = j.as.size() / j.k;
    j.nb = j.bs.size() / j.k;
    jobs.push_back(j);
  }
  if (jobs.empty()) {
    fprintf(stderr, "no manifest in %s\n", dir.c_str());
    exit(1);
  }
  return jobs;
}

struct Timing {
  double best, median;
  size_t reps;
};

// Processor time of this thread, so that other work on a shared machine counts as little as it can.
inline double now_ns() {
  timespec t;
  clock_gettime(CLOCK_THREAD_CPUTIME_ID, &t);
  return t.tv_sec * 1e9 + t.tv_nsec;
}
inline void barrier() { asm volatile("" ::: "memory"); }
template <class T>
inline void keep(T const& v) {
  asm volatile("" : : "r,m"(v) : "memory");
}

// setup() is not timed, op() is. At least 7 runs, then until the budget (BENCH_MS, default 60 ms) is spent.
template <class Setup, class Op>
Timing measure(Setup setup, Op op) {
  const char* e = getenv("BENCH_MS");
  double budget = (e ? atof(e) : 60) * 1e6, spent = 0;
  std::vector<double> t;
  for (int i = -2; i < 5000 && (i < 7 || spent < budget); i++) {
    setup();
    barrier();
    double a = now_ns();
    op();
    barrier();
    double b = now_ns();
    if (i < 0) continue;
    t.push_back(b - a);
    spent += b - a;
  }
  std::sort(t.begin(), t.end());
  return {t[0], t[t.size() / 2], t.size()};
}
template <class Op>
Timing measure(Op op) {
  return measure([] {}, op);
}

// One result line: peer, workload, size, operation, form, entries in, entries out, hash of the answer, best and
// median time in ns of one call, repetitions.
// form: 'list' is lists of entries in, a list of entries in list order out; 'core' is the peer's own representation;
// 'call' a single call.
inline void emit(const char* peer, const Job& j, const char* op, const char* form, size_t n_in, size_t n_out, u64 hash,
                 Timing t) {
  printf("%s\t%s\t%s\t%s\t%s\t%zu\t%zu\t%016llx\t%.1f\t%.1f\t%zu\n", peer, j.name.c_str(), j.size.c_str(), op, form,
         n_in, n_out, (unsigned long long)hash, t.best, t.median, t.reps);
  fflush(stdout);
}

// A timed sample is one call on each of the job's k lists. f(i, out) answers with the count; it writes at out. The answers are
// hashed before the timing, as xyz2rmid numbers.
template <class Op, class Number = u64 (*)(u64)>
void run_list(const char* peer, const Job& j, const char* op, const char* form, u64* out, Op f, Number number = same) {
  u64 h = NO_ANSWERS;
  size_t total = 0;
  for (size_t i = 0; i < j.k; i++) {
    size_t c = f(i, out);
    h = answer_hash(h, out, c, number);
    total += c;
  }
  Timing t = measure([&] {
    for (size_t i = 0; i < j.k; i++) keep(f(i, out));
  });
  emit(peer, j, op, form, j.n(), total / j.k, h, {t.best / j.k, t.median / j.k, t.reps});
}
