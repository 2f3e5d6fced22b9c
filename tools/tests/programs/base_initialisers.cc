#include <cstdio>
struct V { int v; V(int k) : v(k) { printf("V %d\n", v); } virtual ~V() { printf("~V\n"); } };
struct L : virtual V { L(int k) : V(k) { printf("L\n"); } ~L() { printf("~L\n"); } };
struct R : virtual V { int r; R(int k) : V(k * 2), r(k) { printf("R %d\n", r); } };
struct D : L, R { D(int k) : V(k + 100), L(k), R(k + 1) { printf("D %d %d\n", v, r); } };
int main() {
    D d(5);
    R r(7);
    V *p = new L(1);
    delete p;
}
