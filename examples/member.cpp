struct X { long a; virtual void x() {} };
struct A { long b; virtual A* clone() { return this; } };
struct B : X, A { virtual B* clone() { return this; } };
