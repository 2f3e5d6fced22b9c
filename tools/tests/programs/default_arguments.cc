#include <cstdio>
int next() { static int n = 0; return ++n; }
int f(int a, int b = 3, int c = next()) { return 100 * a + 10 * b + c; }
struct T { int n; T(int a = 5, int b = 6) : n(a * b) {} };
int main() {
    int x = f(1), y = f(1, 2);
    printf("%d %d %d\n", x, y, f(1, 2, 4));
    T a, b(2), c(2, 3);
    printf("%d %d %d %d\n", a.n, b.n, c.n, f(0));
}
