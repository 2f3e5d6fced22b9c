#include <cstdio>
namespace outer { int n = 1; namespace inner { int n = 2; struct T { int n; T() : n(3) {} int f() { return n + inner::n + outer::n; } }; int f(T &t) { return t.f() * 10; } } }
namespace short_name = outer::inner;
using outer::inner::T;
namespace { int hidden() { return 7; } }
int n = 100;
int main() { T t; short_name::n = 20; printf("%d %d %d\n", f(t), hidden(), n + ::n + outer::n); }
