#include <cstdio>
int main() {
    const char *word = "word";
    printf("%5d|%-5d|%05d|%x|%X|%o|%c|%%|%s|%u\n", 42, 42, 42, 255, 255, 8, 'q', word, 3000000000u);
    printf("%ld %lu %hd\n", -5L, 18446744073709551615ul, (short)-3);
    puts("a line with \"quotes\" and a \\");
    putchar('!');
    putchar('\n');
}
