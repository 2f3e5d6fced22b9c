#include <cstdio>
struct T { int n; T *self() { return this; } };
int main() {
    T *t = 0; { T local; local.n = 1; t = local.self(); printf("%d\n", t->n); }
    printf("%d\n", t->n);
}
