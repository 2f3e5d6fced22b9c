#include <cstdio>
struct N { int n; N(int k) : n(k) { printf("N %d\n", n); } };
struct M { int a; N b; int c; N d; const int &r; bool z; M(int k) : a(k), b(k + 1), c(a * 2), d(c + a), r(a), z() { printf("M %d %d %d %d\n", a, c, d.n, r + z); } };
int main() { M m(10); m.a = 4; printf("%d\n", m.r); }
