struct A { virtual int f() { return 1; } };
A *first;
struct L : A { L() { first = this; } };
struct R { R() { first->f(); } };
struct D : L, R { int f() { return 2; } };
int main() {
    D d;
    return 0;
}
