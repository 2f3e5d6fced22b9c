#include <cstdio>
struct T { int n; T(int k) : n(k) { printf("T %d\n", n); } ~T() { printf("~T %d\n", n); } int twice() const { return 2 * n; } };
int use(const T &t) { return t.n; }
int main() {
    printf("%d\n", T(1).twice() + 1);
    int x = use(T(2)) + use(3);
    T(4);
    const T &kept = T(5);
    printf("%d %d\n", x, kept.n);
    bool b = use(6) == 7 || T(7).n == 7;
    int c = x > 100 ? use(T(8)) : 9;
    if (T(10).n > 9) printf("if %d %d\n", b, c);
}
