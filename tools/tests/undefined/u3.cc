struct B { B(); };
struct D : B { int m; D() {} };
B::B() { static_cast<D *>(this)->m = 3; }
int main() {
    D d;
    return 0;
}
