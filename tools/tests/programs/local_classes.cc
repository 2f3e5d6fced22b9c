#include <cstdio>
int main() {
    struct Counter { int n; Counter() : n(0) {} int next() { return ++n; } };
    enum { step = 3 };
    Counter c;
    for (int i = 0; i < step; i++) c.next();
    struct Sum : Counter { int total; Sum() : total(10) {} int next() { total += Counter::next(); return total; } } s;
    s.next();
    printf("%d %d\n", c.n, s.next());
}
