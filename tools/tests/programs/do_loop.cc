#include <cstdio>
int main() {
    int n = 10, turns = 0;
    do {
        n -= 3;
        turns++;
        if (n == 4) continue;
        printf("%d\n", n);
    } while (n > 0);
    do printf("once\n"); while (false);
    printf("%d\n", turns);
}
