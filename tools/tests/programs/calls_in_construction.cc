#include <cstdio>
#include <typeinfo>
struct A { A() { f(); } virtual void f() { printf("A::f %d\n", typeid(*this) == typeid(A)); } virtual ~A() { f(); } };
struct B : A { B() { f(); A::f(); } virtual void f() { printf("B::f %d\n", typeid(*this) == typeid(B)); } virtual ~B() { f(); } };
struct C : B { virtual void f() { printf("C::f\n"); } };
int main() { C c; A &a = c; a.f(); }
