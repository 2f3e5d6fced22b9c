#include <iostream>
struct P { int x, y; };
std::ostream &operator<<(std::ostream &out, const P &p) { return out << "(" << p.x << ", " << p.y << ")"; }
int main() {
    P p = {1, -2};
    char c = 'x';
    unsigned u = 4000000000u;
    std::cout << "p = " << p << std::endl;
    std::cout << c << ' ' << u << ' ' << true << ' ' << 5L << "%\n" << 7 << std::endl;
}
