#include <cstdio>
struct P { int x; };
void add(int &n, const int &k) { n += k; }
int &larger(int &a, int &b) { return a < b ? b : a; }
P &first(P &p) { return p; }
int main() {
    int a = 1, b = 2;
    add(a, 5);
    add(b, a + b);
    larger(a, b) = 40;
    int &r = a;
    r++;
    P p = {3};
    P &q = first(p);
    q.x += 2;
    add(p.x, q.x);
    int *n = &b;
    *n += 1;
    printf("%d %d %d\n", a, b, p.x);
}
