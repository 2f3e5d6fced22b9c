#include <cstdio>
int f(int) { return 1; }
int f(long) { return 2; }
int f(char) { return 3; }
int f(int, int) { return 4; }
struct A {
    int g(int) { return 5; }
    int g(bool) { return 6; }
    virtual int g(A *) { return 7; }
};
struct B : A { int g(A *) { return 8; } using A::g; };
int main() {
    B b;
    A *a = &b;
    printf("%d %d %d %d %d %d %d %d\n", f(1), f(1L), f('c'), f(1, 2), b.g(1), b.g(true), a->g(a), a->A::g(a));
}
