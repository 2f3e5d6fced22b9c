#include <cstdio>
struct X { long x; X() : x(1) {} virtual ~X() {} };
struct A { long a; A() : a(2) {} virtual A *clone() const { return new A(*this); } virtual ~A() {} };
struct B : X, A { long b; B() : b(3) {} virtual B *clone() const { return new B(*this); } };
int main() { B b; b.a = 7; A *p = &b; A *q = p->clone(); printf("%ld %ld\n", q->a, static_cast<B *>(q)->b); delete q; }
