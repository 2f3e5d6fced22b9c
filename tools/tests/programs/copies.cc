#include <cstdio>
struct P { int x; long a[3]; };
struct Q : P { short s; P inner; };
struct C { int n; C(int k) : n(k) {} C(const C &o) : n(o.n + 1) { printf("copy %d\n", n); } C &operator=(const C &o) { n = o.n * 10; return *this; } };
struct H { C c; int k; H(int a) : c(a), k(a) {} };
C pass(C c) { return c; }
int main() {
    Q q;
    q.x = 1; q.s = 2; q.a[0] = q.a[1] = q.a[2] = 3; q.inner = q;
    Q r = q;
    q.inner.x = 9;
    r = q;
    printf("%d %d %d\n", r.x, r.inner.x, r.s);
    C c(1), d = c;
    c = d;
    H h(50), i = h;
    printf("%d %d %d %d\n", c.n, d.n, i.c.n, i.k);
    printf("%d\n", pass(c).n);
}
