#include <cstdio>
template <class T, int N> struct Stack {
    T items[N];
    int size;
    Stack() : size(0) {}
    void push(T t) { items[size++] = t; }
    T pop() { return items[--size]; }
};
template <class T> T largest(T a, T b) { return a < b ? b : a; }
template <int N> struct Sum { enum { value = N + Sum<N - 1>::value }; };
template <> struct Sum<0> { enum { value = 0 }; };
template <class T> struct Base { T *self() { return static_cast<T *>(this); } int twice() { return 2 * self()->once(); } };
struct Once : Base<Once> { int once() { return 21; } };
int main() {
    Stack<int, 4> s;
    Stack<long, 2> l;
    s.push(3); s.push(4); l.push(5);
    Once o;
    int last = s.pop();
    printf("%d %d %ld %d %ld %d %d\n", last, s.pop(), l.pop(), largest(3, 4), largest(5L, 2L), Sum<10>::value, o.twice());
}
