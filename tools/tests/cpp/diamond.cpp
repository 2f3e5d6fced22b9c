struct V { long v; virtual void f(); };
struct B1 : virtual V { long b1; };
struct B2 : virtual V { long b2; };
struct D : B1, B2 { long d; };
