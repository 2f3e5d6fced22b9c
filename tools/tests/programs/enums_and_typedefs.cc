#include <cstdio>
enum Color { red, green = 10, blue };
typedef Color Shade;
typedef struct { int a; unsigned b; } Pair;
struct Lamp { enum State { off, on } state; typedef long Watt; Watt w; Lamp() : state(on), w(60) {} };
const int limit = 3;
int main() {
    Shade s = blue;
    Pair p = {s, green + 1};
    Lamp l;
    for (int i = 0; i < limit; i++) s = Color(s - 1);
    if (l.state == Lamp::on && s < green) printf("%d %d %u %ld\n", s, p.a, p.b, l.w);
    printf("%d\n", (int)sizeof(Pair) + (int)sizeof(l.w));
}
