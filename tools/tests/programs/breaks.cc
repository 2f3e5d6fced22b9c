#include <cstdio>
struct T { int n; T(int k) : n(k) { printf("T %d\n", n); } ~T() { printf("~T %d\n", n); } };
int main() {
    for (int i = 0; i < 6; i++) {
        T outer(i);
        if (i == 1) continue;
        for (int j = 0;; j++) {
            T inner(10 * i + j);
            if (j == 1) break;
        }
        if (i == 2) break;
        printf("end of turn %d\n", i);
    }
}
