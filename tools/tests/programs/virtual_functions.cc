#include <cstdio>
struct S { virtual int area() const = 0; virtual const char *name() const { return "shape"; } virtual ~S() { printf("~S\n"); } };
struct Q : S { int a; Q(int k) : a(k) {} int area() const { return a * a; } const char *name() const { return "square"; } };
struct R : Q { int b; R(int k, int l) : Q(k), b(l) {} int area() const { return a * b; } ~R() { printf("~R %d\n", area()); } };
void show(const S &s) { printf("%s %d\n", s.name(), s.area()); }
int main() {
    S *s[2] = {new Q(3), new R(4, 5)};
    for (int i = 0; i < 2; i++) { show(*s[i]); delete s[i]; }
    show(R(1, 2));
}
