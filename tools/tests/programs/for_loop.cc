#include <cstdio>
int main() {
    int sum = 0;
    for (int i = 0; i < 5; i++)
        for (int j = i; j; --j) sum += i * j;
    int k = 3;
    for (; k;) k--;
    for (;;) {
        if (++k > 4) break;
    }
    printf("%d %d\n", sum, k);
}
