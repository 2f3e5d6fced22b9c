#include <cstdio>
struct T { int n; T() : n(1) { printf("T()\n"); } T(int k) : n(k) { printf("T(%d)\n", k); } ~T() { printf("~T %d\n", n); } };
int main() {
    T a;
    {
        T b(2), c = T(3);
        a.n = b.n + c.n;
    }
    T d = 4;
    printf("%d %d\n", a.n, d.n);
}
