#include <cstdio>
int g = 1, count = 0;
int next(int n) { printf("next %d\n", n); return ++count; }
struct P { int n; P(int k) : n(k) { g = k; } };
struct Q { int n; Q(int k) : n(k) {} };
struct T { int n; T(int k) : n(k) { printf("T %d\n", n); } ~T() { printf("end %d\n", n); } };
struct Before { int a; P p; Before() : a(g), p(5) {} };
struct Once { int a, b; Q q; int c; Once(int k) : a(next(k)), b(a + 1), q(b + next(k)), c(q.n) {} };
struct Twice { int a; Q q; int b; Q r; Twice() : a(next(7)), q(a), b(next(8)), r(b) {} };
struct Temporary { int a; P p; const int &r; Temporary() : a(T(3).n), p(a * 2), r(g) { printf("body\n"); } };
struct Behind { P p; int a; Behind() : p(9), a(g) {} };
int main() {
    Before before;
    printf("%d %d\n", before.a, g);
    Once once(4);
    printf("%d %d %d %d\n", once.a, once.b, once.q.n, once.c);
    Twice twice;
    printf("%d %d %d %d\n", twice.a, twice.q.n, twice.b, twice.r.n);
    Temporary temporary;
    printf("%d %d %d\n", temporary.a, temporary.p.n, temporary.r);
    Behind behind;
    printf("%d\n", behind.a);
}
