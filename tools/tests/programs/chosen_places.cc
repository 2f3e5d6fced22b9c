#include <cstdio>
struct P { int a, b; };
int g = 1, h = 2;
int main() {
    int x = 1, y = 2;
    bool c = false;
    (c ? x : y) = 7;
    (!c ? x : y) += 3;
    ++(c ? x : y);
    P p = {1, 2};
    (c ? p.a : p.b) = 9;
    int z = (c ? g : h) = 4;
    (z = 5, c ? g : h)--;
    printf("%d %d %d %d %d %d %d\n", x, y, p.a, p.b, g, h, z);
}
