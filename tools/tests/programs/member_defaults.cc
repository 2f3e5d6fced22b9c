#include <cstdio>
int f(int n) { printf("f %d\n", n); return n; }
struct P { int n; P(int k) : n(k) { printf("P %d\n", n); } };
struct S { int a = 4; int b = f(5); P p = P(6); int c; S() : c(a) {} S(int k) : a(k), b(1), c(2) {} };
int main() {
    S s, t(9);
    printf("%d %d %d %d %d %d\n", s.a, s.b, s.p.n, s.c, t.a, t.b);
}
