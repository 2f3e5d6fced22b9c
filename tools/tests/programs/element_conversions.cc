#include <cstdio>
struct T { int n; T(int k) : n(k) { printf("T %d\n", n); } T(const T &o) : n(o.n + 100) { printf("copy %d\n", n); } ~T() { printf("end %d\n", n); } };
int main() {
    T a[3] = { T(1), 2, T(3) };
    a[0].n = 4;
    printf("%d\n", a[0].n + a[1].n + a[2].n);
}
