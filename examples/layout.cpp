struct E {};
struct A { int a; char c; A() {} };
struct B : E, A { char d; E e[2]; };
