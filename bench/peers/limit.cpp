// Times the hand-written references on the workloads: limit (radix sort), limit_chk (the same with refusals), plain (std::sort).
#include "limit.hpp"

#include "calls.hpp"

static List out(8 << 20);

template <limit::Op OP>
static void run_limit(const Job& j, const char* op) {
  auto go = [&](auto f) {
    return [&j, f](size_t i, u64* o) {
      size_t c = 0;
      int r = f(j.a(i), j.na, j.b(i), j.nb, o, out.size(), &c);
      if (r) fprintf(stderr, "unexpected refusal %d\n", r), exit(1);
      return c;
    };
  };
  run_list("limit", j, op, "list", out.data(), go(limit::call<false, OP>));
  run_list("limit_chk", j, op, "list", out.data(), go(limit::call<true, OP>));
}

int main(int argc, char** argv) {
  auto jobs = load_jobs(argc > 1 ? argv[1] : ".");
  for (const Job& j : jobs) {
    size_t na = j.na, nb = j.nb;
    if (j.kind == "settle") {
      run_limit<limit::SETTLE>(j, "settle");
      run_list("plain", j, "settle", "list", out.data(), [&](size_t i, u64* o) { return plain::settle(j.a(i), na, o); });
      run_limit<limit::MERGE>(j, "merge");
    } else if (j.kind == "area") {
      run_limit<limit::UNION>(j, "union");
      run_list("plain", j, "union", "list", out.data(),
               [&](size_t i, u64* o) { return plain::join(j.a(i), na, j.b(i), nb, o); });
      run_limit<limit::COMMON>(j, "common");
      run_list("plain", j, "common", "list", out.data(),
               [&](size_t i, u64* o) { return plain::common(j.a(i), na, j.b(i), nb, o); });
      run_limit<limit::MINUS>(j, "minus");
      run_list("plain", j, "minus", "list", out.data(),
               [&](size_t i, u64* o) { return plain::minus(j.a(i), na, j.b(i), nb, o); });
    } else {
      time_calls("limit", j, LimitCalls{});
    }
  }
}
