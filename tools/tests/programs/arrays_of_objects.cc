#include <cstdio>
struct T { static int count; int n; T() : n(++count) { printf("T %d\n", n); } T(int k) : n(k) { printf("T(%d)\n", k); } ~T() { printf("~T %d\n", n); } };
int T::count = 0;
struct H { T t[2]; };
int main() {
    T a[3];
    T b[3] = {T(7), 8};
    H h;
    int sum = 0;
    for (int i = 0; i < 3; i++) sum += a[i].n * b[i].n;
    printf("%d %d\n", sum, h.t[1].n);
}
