struct V { virtual void f() {} };
struct L : virtual V { virtual void f() {} };
struct R : virtual V { virtual void f() {} };
struct D : L, R {};
