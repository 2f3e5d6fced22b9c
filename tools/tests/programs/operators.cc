#include <cstdio>
struct V {
    int x, y;
    V(int a, int b) : x(a), y(b) {}
    V operator-() const { return V(-x, -y); }
    V &operator+=(const V &o) { x += o.x; y += o.y; return *this; }
    bool operator==(const V &o) const { return x == o.x && y == o.y; }
    int operator[](int i) const { return i ? y : x; }
    int operator()(int k) { return k * x; }
    V &operator++() { ++x; return *this; }
    operator bool() const { return x || y; }
};
V operator+(V a, const V &b) { return a += b; }
int main() {
    V a(1, 2), b(3, 4);
    V c = a + -b;
    ++(c += a);
    printf("%d %d %d %d %d %d\n", c.x, c.y, a == b, c[1], b(5), c ? 1 : 0);
}
