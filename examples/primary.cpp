struct Empty {};
struct Pure { virtual void f() {} };
struct Data { long n; virtual void g() {} };
struct X : Empty, virtual Pure { int x; };
struct Y : Empty, virtual Data { int y; };
