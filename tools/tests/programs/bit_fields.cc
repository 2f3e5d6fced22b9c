// Bit-fields: stores that keep low bits, steps, what an assignment gives, initialisers, lists, copies, bases.
#include <cstdio>

enum Color { red, green, blue, violet };

struct Flags {
    unsigned ready : 1;
    int level : 3;
    bool open : 1;
    Color color : 2;
    unsigned char low : 4;
    long wide : 40;
};

struct Counted {
    unsigned int count : 3;
    signed char step : 2;
    char letter;
    Counted() : count(6), step(-1), letter('a') {}
    Counted(int n) : count(n), step(n), letter('b') {}
    int sum() { return count + step; }
    virtual void show() { std::printf("counted %d %d %c\n", count, step, letter); }
};

struct Derived : Counted {
    unsigned short more : 9;
    Derived(int n) : Counted(n), more(n * 3) {}
    virtual void show() { std::printf("derived %d %d %d\n", count, step, more); }
};

struct Holder {
    Flags flags[2];
    Counted counted;
    int last : 5;
};

int twice(int n) { return n * 2; }

int main() {
    Flags f = {1, 9, true, blue, 300, -5};
    std::printf("%d %d %d %d %d %ld\n", f.ready, f.level, f.open, f.color, f.low, (long)f.wide);
    f.ready = 2;
    f.level = 4;
    f.open = 8;
    f.color = violet;
    f.low = -1;
    f.wide = 1L << 39;
    std::printf("%d %d %d %d %d %ld\n", f.ready, f.level, f.open, f.color, f.low, (long)f.wide);
    int kept = f.level = 7;
    std::printf("%d %d\n", kept, f.level);
    int stepped = ++f.level;
    std::printf("%d %d\n", stepped, f.level);
    stepped = f.level--;
    std::printf("%d %d\n", stepped, f.level);
    f.low += 3;
    f.low <<= 2;
    f.low ^= 5;
    f.wide *= 2;
    std::printf("%d %ld %d\n", f.low, (long)f.wide, f.low - 20 < 0);
    std::printf("%d %d\n", f.color == violet, f.ready ? 1 : 2);
    Flags g = f;
    g.level = 1;
    f = g;
    std::printf("%d %d %d\n", f.level, g.low, twice(g.low));
    Flags none = Flags();
    std::printf("%d %d %ld\n", none.ready, none.color, (long)none.wide);
    Counted c;
    c.show();
    std::printf("%d\n", c.sum());
    Counted d(11);
    d.show();
    c = d;
    c.count++;
    c.count++;
    c.show();
    Derived e(200);
    Counted *base = &e;
    base->show();
    base->count -= 1;
    base->show();
    Holder h;
    h.flags[1].low = 9;
    h.flags[0] = f;
    h.last = 17;
    h.counted.step = 2;
    std::printf("%d %d %d %d\n", h.flags[1].low, h.flags[0].level, h.last, h.counted.step);
    for (f.low = 12; f.low > 10; f.low++) std::printf("turn %d\n", f.low);
    const int &bound = f.level;
    f.level = 2;
    std::printf("%d %d\n", bound, f.level);
    switch (f.color) {
    case red: std::printf("red\n"); break;
    case violet: std::printf("violet\n"); break;
    default: std::printf("other\n");
    }
    return f.low;
}
