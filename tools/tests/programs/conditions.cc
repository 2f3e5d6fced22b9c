#include <cstdio>
int asked(int n) { printf("asked %d\n", n); return n; }
int main() {
    if (asked(0) && asked(1)) printf("no\n");
    if (asked(2) || asked(3)) printf("yes\n");
    if (!asked(0) && (asked(0) || asked(4))) printf("both\n");
    int n = asked(0) ? asked(5) : asked(6) ? asked(7) : asked(8);
    printf("%d %d\n", n, (n > 5) + (n >= 7) + (n < 7) + (n != 8));
}
