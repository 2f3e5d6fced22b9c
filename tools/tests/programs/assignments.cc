#include <cstdio>
int main() {
    int a, b, c;
    a = b = c = 7;
    a += b -= c *= 2;
    short s = 30000;
    s += 10000;
    long l = 5;
    l -= 2u;
    unsigned u = 1;
    u -= 2;
    printf("%d %d %d %d %ld %u\n", a, b, c, s, l, u);
}
