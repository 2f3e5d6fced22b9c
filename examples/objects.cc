// A program to look at in gdb. It calls `stop` where an object is under construction, complete, with an overwritten pointer, and ended.
namespace shapes {
struct V { long v; V() : v(7) {} virtual void f() {} virtual ~V() {} };
struct B1 : virtual V { int b1; bool on; B1(); virtual void g() {} private: int low : 5; unsigned wide : 20; };
struct B2 : virtual V { short b2[3]; V* seen; B2() : seen(this) { b2[0] = b2[1] = b2[2] = 257; } };
template <class T> struct Box { T value; Box* next; Box() : value(-1), next(this) {} };
enum Color { RED, GREEN };
struct D : B1, B2 { Box<int> box; Color color; const char* name; D* self; V* none; D() : color(GREEN), name("d"), self(this), none(0) {} virtual void f() {} };
struct Plain { char c; int i; };
struct Odd { bool odd; };
}
using namespace shapes;
static void stop(void*) {}
B1::B1() : b1(258), on(true), low(-3), wide(9) { stop(this); }
static int fast(Plain p) { return p.c; }
int main() {
    D* d = new D;
    V* v = d;
    Plain plain = {'a', 5};
    Odd odd;
    *(char*)&odd = 9;
    D* none = 0;
    stop(d);
    *(void**)v = (void*)0x4141414141414141;
    *(void**)d = *(char**)d + 8;
    stop(d);
    return fast(plain) + (none != 0) + (v == 0);
}
