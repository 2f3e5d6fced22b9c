#include <cstdio>
struct P { int a; int f(int k) { return a * k; } };
int main() {
    P p;
    p.a = 3;
    int x = (p.f(2) + 4) * (p.a - 1) - p.f(p.f(1));
    long y = -x + 1000000000L * 5;
    printf("%d %ld\n", x, y - (x - (3 - (2 - x))));
}
