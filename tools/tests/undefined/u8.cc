struct A { int n; };
struct B : A {};
int main() {
    A *a = new B;
    delete a;
    return 0;
}
