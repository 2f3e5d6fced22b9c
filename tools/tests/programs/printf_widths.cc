#include <cstdio>
int main() {
    int low = -1;
    unsigned high = 4000000000u;
    char letter = -2;
    printf("%u\n", low);
    printf("%d\n", high);
    printf("%lu\n", (long)low);
    printf("%ld\n", ~0ul);
    printf("%hd\n", 70000);
    printf("%hhu\n", 300);
    printf("%d %u\n", high, low);
    printf("%u\n", letter);
    printf("%d\n", (unsigned char)200);
}
