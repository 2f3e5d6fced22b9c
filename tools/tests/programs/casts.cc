#include <cstdio>
#include <typeinfo>
struct A { virtual ~A() {} };
struct B { long b; virtual ~B() {} };
struct C : A, B { long c; C() : c(6) { b = 5; } };
int main() {
    A *a = new C;
    B *b = dynamic_cast<B *>(a);
    C *c = static_cast<C *>(b);
    printf("%ld %ld %d %d\n", b->b, c->c, dynamic_cast<C *>(b) == a, typeid(*b) == typeid(C));
    A plain;
    printf("%d %d\n", dynamic_cast<B *>(&plain) == 0, typeid(plain) != typeid(B));
    if (C *again = dynamic_cast<C *>(a)) printf("%ld\n", again->c);
    delete a;
    printf("%d %d\n", (int)3000000000u, (unsigned char)300);
}
