#include <cstdio>
struct D {
    int a = 4, b;
    D() : b(a + 1) {}
    explicit D(int k) : a(k), b(2) {}
};
enum class State : char { off, on = 3 };
int main() {
    auto twice = [](int x) { return x * 2; };
    auto show = [](const D &d) { printf("%d %d\n", d.a, d.b); };
    D d, e(twice(9));
    show(d);
    show(e);
    State s = State::on;
    D *n = nullptr;
    if (s == State::on && !n) printf("%d\n", static_cast<int>(s));
}
