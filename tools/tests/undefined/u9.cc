struct A { int n; };
struct H { int k; A a; };
int main() {
    H *h = new H;
    A *a = &h->a;
    delete a;
    return 0;
}
