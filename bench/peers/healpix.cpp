// Times Healpix_cxx's Moc on the workloads (sorted ranges of order-29 pixels). A tile of zoom z is the nested pixel of order z in
// base pixel 0 with the quadkey digits as its number: zoom 30 has none, and no list of the workloads a tile of it. core: settle is sort
// of NUNIQ numbers, fromUniq, toUniq; the area operations are ranges in, ranges out. list: lists of entries in and out.
#include <healpix_cxx/moc.h>

#include "common.hpp"

static List out(8 << 20);
using M = Moc<int64_t>;
using Uniq = std::vector<int64_t>;

static Uniq uniqs(const u64* v, size_t n) {
  Uniq u(n);
  for (size_t i = 0; i < n; i++) {
    Tile t = rmid2xyz(v[i]);
    u[i] = morton(t.x, t.y) + (4ull << 2 * t.z);
  }
  return u;
}
static M moc(Uniq u) {
  std::sort(u.begin(), u.end());
  return M::fromUniq(u);
}
static size_t to_list(const M& m, u64* o) {
  size_t n = 0;
  for (int64_t u : m.toUniq()) {
    int z = (62 - __builtin_clzll(u)) / 2;
    u64 q = u - (4ll << 2 * z);
    o[n++] = order_key({gather(q), gather(q >> 1), (u8)z});
  }
  std::sort(o, o + n);
  for (size_t i = 0; i < n; i++) o[i] = order_key_entry(o[i]);
  return n;
}

template <class Op>
static void area(const Job& j, const char* op, Op f) {
  std::vector<M> a, b, r(j.k);
  for (size_t i = 0; i < j.k; i++) a.push_back(moc(uniqs(j.a(i), j.na))), b.push_back(moc(uniqs(j.b(i), j.nb)));
  Timing t = measure([&] { r = std::vector<M>(j.k); },
                     [&] {
                       for (size_t i = 0; i < j.k; i++) r[i] = f(a[i], b[i]);
                     });
  emit("healpix", j, op, "core", j.n(), r[0].nranges(), 0, {t.best / j.k, t.median / j.k, t.reps});
  run_list("healpix", j, op, "list", out.data(), [&](size_t i, u64* o) {
    return to_list(f(moc(uniqs(j.a(i), j.na)), moc(uniqs(j.b(i), j.nb))), o);
  });
}

int main(int argc, char** argv) {
  auto jobs = load_jobs(argc > 1 ? argv[1] : ".");
  for (const Job& j : jobs) {
    if (j.kind == "settle") {
      std::vector<Uniq> in, work, r(j.k);
      for (size_t i = 0; i < j.k; i++) in.push_back(uniqs(j.a(i), j.na));
      Timing t = measure([&] { work = in; },
                         [&] {
                           for (size_t i = 0; i < j.k; i++) {
                             std::sort(work[i].begin(), work[i].end());
                             r[i] = M::fromUniq(work[i]).toUniq();
                           }
                         });
      emit("healpix", j, "settle", "core", j.n(), r[0].size(), 0, {t.best / j.k, t.median / j.k, t.reps});
      run_list("healpix", j, "settle", "list", out.data(),
               [&](size_t i, u64* o) { return to_list(moc(uniqs(j.a(i), j.na)), o); });
    } else if (j.kind == "area") {
      area(j, "union", [](const M& a, const M& b) { return a.op_or(b); });
      area(j, "common", [](const M& a, const M& b) { return a.op_and(b); });
      area(j, "minus", [](const M& a, const M& b) { return a.op_andnot(b); });
    }
  }
}
