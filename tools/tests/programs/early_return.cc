#include <cstdio>
struct T { int n; T(int k) : n(k) {} ~T() { printf("~T %d\n", n); } };
int f(int k) {
    T a(1);
    if (k == 0) return a.n + 10;
    T b(2);
    while (true) {
        T c(3);
        if (k == 1) return b.n + c.n;
        break;
    }
    return k;
}
void g(bool b) {
    T a(9);
    if (b) return;
    printf("g goes on\n");
}
int main() { printf("%d\n", f(0)); printf("%d\n", f(1)); printf("%d\n", f(2)); g(true); g(false); }
