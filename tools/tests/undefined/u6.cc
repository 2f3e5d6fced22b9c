struct A { A() { call(); } void call() { f(); } virtual void f() = 0; };
struct B : A { void f() {} };
int main() {
    B b;
    return 0;
}
