#include <cstdio>
int main() {
    int a = -37, b = 10;
    unsigned u = 0xF0F0u;
    printf("%d %d %d %d %d %d\n", a / b, a % b, a & b, a | b, a ^ b, ~a);
    printf("%d %d %u %u %u %ld\n", a >> 2, b << 3, u >> 4, u & 0xFF00, u ^ 0xFFFFFFFFu, 1L << 40);
    a /= 4;
    b <<= 2;
    u |= 15;
    u %= 1000;
    printf("%d %d %u %lu\n", a, b, u, 18446744073709551615ul / 10);
}
