#include <cassert>
#include <cstdio>
struct T { int n; T(int k) : n(k) { assert(n > 0); } };
int main() {
    assert(2 + 2 == 4);
    T a(1);
    assert(a.n > 1 && "never above");
    printf("never\n");
}
