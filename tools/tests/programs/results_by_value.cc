#include <cstdio>
struct T { int n; T(int k) : n(k) { printf("T %d\n", n); } T(const T &o) : n(o.n) { printf("copy\n"); } ~T() { printf("~T %d\n", n); } };
T make(int k) { return T(k); }
T named(int k) { T t(k); t.n++; return t; }
T operator+(const T &a, const T &b) { return T(a.n + b.n); }
int main() {
    T a = make(1);
    T b = named(2);
    make(3);
    const T &r = a + b;
    printf("%d %d %d\n", a.n, b.n, r.n);
    printf("%d\n", (a + b).n);
}
