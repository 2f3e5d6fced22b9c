#include <cstdio>
struct P { int n; char c; };
int main() {
    int i = 5;
    int a = i++ * 2, b = ++i * 2, c = i-- - 1, d = --i;
    P p = {1, 'a'};
    p.n++;
    ++p.c;
    ++(p.n += 4);
    unsigned char w = 255;
    w++;
    printf("%d %d %d %d %d %d %c %d\n", a, b, c, d, i, p.n, p.c, w);
}
