struct A { virtual ~A() {} };
struct B : A { int m; B() : m(1) {} };
int main() {
    A a, *p = &a;
    B *b = static_cast<B *>(p);
    return b == 0;
}
