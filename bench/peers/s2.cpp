// Times S2's S2CellUnion on the workloads. A tile of zoom z is the cell of level z in face 0 whose child positions are its quadkey
// digits, so the trees have the same shape. core: cell ids in S2's own form in and out; list: lists of entries.
#include <s2/s2cell_id.h>
#include <s2/s2cell_union.h>

#include "common.hpp"

static List out(8 << 20);

static S2CellId cell(u64 entry) {
  Tile t = rmid2xyz(entry);
  return S2CellId(morton(t.x, t.y) << (61 - 2 * t.z) | 1ull << (60 - 2 * t.z));
}
static u64 order_key(S2CellId c) {
  u32 z = c.level();
  u64 q = c.id() >> (61 - 2 * z);
  return ::order_key({gather(q), gather(q >> 1), (u8)z});
}
static size_t to_list(const S2CellUnion& u, u64* o) {
  size_t n = 0;
  for (S2CellId c : u) o[n++] = order_key(c);
  std::sort(o, o + n);
  for (size_t i = 0; i < n; i++) o[i] = order_key_entry(o[i]);
  return n;
}
static std::vector<S2CellId> cells(const u64* v, size_t n) {
  std::vector<S2CellId> c(n);
  for (size_t i = 0; i < n; i++) c[i] = cell(v[i]);
  return c;
}

template <class Op>
static void core(const Job& j, const char* op, Op f) {
  std::vector<S2CellUnion> a, b, r(j.k);
  for (size_t i = 0; i < j.k; i++) {
    a.push_back(S2CellUnion(cells(j.a(i), j.na)));
    b.push_back(S2CellUnion(cells(j.b(i), j.nb)));
  }
  Timing t = measure([&] { r = std::vector<S2CellUnion>(j.k); },
                     [&] {
                       for (size_t i = 0; i < j.k; i++) r[i] = f(a[i], b[i]);
                     });
  emit("s2", j, op, "core", j.n(), r[0].num_cells(), 0, {t.best / j.k, t.median / j.k, t.reps});
  run_list("s2", j, op, "list", out.data(), [&](size_t i, u64* o) {
    // The lists are settled: putting them in cell order is all that S2 needs.
    auto x = cells(j.a(i), j.na), y = cells(j.b(i), j.nb);
    std::sort(x.begin(), x.end());
    std::sort(y.begin(), y.end());
    return to_list(f(S2CellUnion::FromNormalized(std::move(x)), S2CellUnion::FromNormalized(std::move(y))), o);
  });
}

int main(int argc, char** argv) {
  auto jobs = load_jobs(argc > 1 ? argv[1] : ".");
  for (const Job& j : jobs) {
    if (j.kind == "settle") {
      std::vector<std::vector<S2CellId>> in, work;
      for (size_t i = 0; i < j.k; i++) in.push_back(cells(j.a(i), j.na));
      std::vector<S2CellUnion> r(j.k);
      Timing t = measure([&] { work = in; },
                         [&] {
                           for (size_t i = 0; i < j.k; i++) {
                             r[i] = S2CellUnion::FromVerbatim(std::move(work[i]));
                             r[i].Normalize();
                           }
                         });
      emit("s2", j, "settle", "core", j.n(), r[0].num_cells(), 0, {t.best / j.k, t.median / j.k, t.reps});
      run_list("s2", j, "settle", "list", out.data(), [&](size_t i, u64* o) {
        auto u = S2CellUnion::FromVerbatim(cells(j.a(i), j.na));
        u.Normalize();
        return to_list(u, o);
      });
    } else if (j.kind == "area") {
      core(j, "union", [](const S2CellUnion& a, const S2CellUnion& b) { return a.Union(b); });
      core(j, "common", [](const S2CellUnion& a, const S2CellUnion& b) { return a.Intersection(b); });
      core(j, "minus", [](const S2CellUnion& a, const S2CellUnion& b) { return a.Difference(b); });
    }
  }
}
