#include <cstdio>
int n;
int set(int k) { n = k; return k + 1; }
int main() {
    int x = (set(4), n * 10);
    for (int i = 0, j = 9; i < j; i++, j -= 2) printf("%d %d\n", i, j);
    printf("%d\n", (x += 2, set(x), n));
}
