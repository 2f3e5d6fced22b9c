#include <cstdio>
struct T { int n; T(int k) : n(k) { printf("T %d\n", n); } ~T() { printf("end %d\n", n); } };
int inner(int n) {
    int sum = 0;
    switch (n) {
    case 6:
        for (int i = 0; i < 3; i++) {
            switch (i) { case 1: continue; default: sum += 10; }
            if (i == 2) break;
        }
        break;
    case 7: return 70;
    }
    return sum;
}
int between(int n) {
    switch (n) {
        int a, pair[2];
    case 1: a = 3; return a;
    case 2: int b; b = 5; pair[1] = b; return pair[1] + 1;
    default: T t(n); int c = t.n * 2; return c;
    }
}
int main() {
    for (int i = 5; i < 9; i++) printf("%d\n", inner(i));
    for (int i = 0; i < 4; i++) printf("%d\n", between(i));
    switch (3) {}
    switch (2) case 2: printf("two\n");
}
