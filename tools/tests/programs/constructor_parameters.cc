#include <cstdio>
struct A { long n; A(long k, bool twice) : n(k) { if (twice) n *= 2; printf("A %ld\n", n); } virtual int id() { return 1; } };
struct B : A { int m; B(int k) : A(k + 1, k > 3), m(k) { printf("B %d %d\n", m, id()); } int id() { return 2; } };
int main() {
    B b(3);
    B *p = new B(4);
    printf("%ld %ld\n", b.n, p->n);
    delete p;
}
