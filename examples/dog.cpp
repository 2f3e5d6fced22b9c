#include <cstdio>
struct Animal {
    Animal() { speak(); }
    virtual void speak() { puts("..."); }
    virtual ~Animal() {}
};
struct Dog : Animal {
    int age;
    Dog(int a) : age(a) { speak(); }
    void speak() { printf("woof %d\n", age); }
};
int twice(int n) { return 2 * n; }
int main() {
    Dog d(twice(4));
    Animal* p = 0;
    p->speak();
}
