#include <cstdio>
int table[4] = {1, 2, 3};
int main() {
    int a[6] = {5, 6};
    long sum = 0;
    for (int i = 2; i < 6; i++) a[i] = a[i - 1] + a[i - 2];
    for (int i = 0; i < 6; i++) sum += a[i];
    table[3] = a[5];
    unsigned char c[2] = {250, 10};
    c[0] += c[1];
    printf("%ld %d %d %d\n", sum, table[3], table[1], c[0]);
}
