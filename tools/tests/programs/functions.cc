#include <cstdio>
int even(int n);
int odd(int n) { return n == 0 ? 0 : even(n - 1); }
int even(int n) { return n == 0 ? 1 : odd(n - 1); }
static long power(long b, int e) { return e ? b * power(b, e - 1) : 1; }
struct M { static int half(int n) { return n / 2; } static int count; };
int M::count = 5;
void show(int n) { printf("%d\n", n); }
int main() { show(even(10)); show(odd(10)); show(power(3, 9)); show(M::half(M::count)); }
