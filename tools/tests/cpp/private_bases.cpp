class A { };
struct A0 { int z; };
class B : A, protected virtual A0 { };
