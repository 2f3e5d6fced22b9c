struct A { virtual A* clone() const; virtual ~A(); };
struct B : A { B* clone() const; int b; };
