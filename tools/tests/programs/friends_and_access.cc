#include <cstdio>
class A {
    int n;
    friend int look(const A &);
    friend class B;
protected:
    int twice() const { return 2 * n; }
public:
    explicit A(int k) : n(k) {}
};
int look(const A &a) { return a.n; }
class B : private A {
public:
    B() : A(8) {}
    int all(const A &a) { return a.n + twice(); }
    using A::twice;
};
int main() { A a(3); B b; printf("%d %d %d\n", look(a), b.all(a), b.twice()); }
