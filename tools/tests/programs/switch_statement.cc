#include <cstdio>
enum Day { mon, tue = 5, wed };
int kind(int n) {
    switch (n) {
    case 1: printf("one\n");
    case 2: printf("one or two\n"); break;
    default: printf("other\n");
    case mon: return 10;
    case tue: case wed: { int k = n * 2; return k; }
    }
    return 20;
}
int main() {
    for (int i = 0; i < 8; i++) printf("%d\n", kind(i));
    for (int i = 0; i < 4; i++) {
        switch (i % 3) { case 0: continue; case 1: break; }
        printf("behind %d\n", i);
    }
}
