#include <cstdio>
struct A { virtual void f() = 0; virtual ~A() = 0; };
void A::f() { printf("A::f\n"); }
A::~A() { printf("~A\n"); }
struct B : A { void f() { A::f(); printf("B::f\n"); } };
int main() { B b; A &a = b; a.f(); }
