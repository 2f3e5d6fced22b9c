#include <cstdio>
struct T { int n; T(int k) : n(k) { printf("T %d\n", n); } ~T() { printf("end %d\n", n); } operator bool() { return n < 3; } };
int leave(int way) {
    int i = 0;
    while (T t = i) {
        T inside(10 + i++);
        if (i == 2 && way == 0) break;
        if (i == 2 && way == 1) continue;
        if (i == 2 && way == 2) return t.n;
        printf("turn %d\n", i);
    }
    return -1;
}
int main() {
    for (int way = 0; way < 3; way++) printf("%d\n", leave(way));
    for (int k = 0; T t = k; k++) { if (k == 1) continue; printf("for %d\n", t.n); }
    if (T t = 1) printf("then\n"); else printf("else\n");
}
