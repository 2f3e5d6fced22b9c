#include <cstdio>
struct V { int x, y; V() : x(0), y(0) {} V(int k) : x(k), y(k) {} V(int a, int b) : x(a), y(b) {} V(const V &v, int k) : x(v.x * k), y(v.y * k) {} };
struct W { V a, b, c; W() : b(5), c(V(1, 2), 3) {} W(int k) : a(k), b(k, k + 1) {} };
int main() {
    W w, u(9);
    printf("%d %d %d %d %d %d\n", w.a.x, w.b.y, w.c.x, w.c.y, u.a.y, u.b.y + u.c.x);
    V v(w.c, 2);
    printf("%d %d\n", v.x, v.y);
}
