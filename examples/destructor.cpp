struct B { virtual void tell() { print(1); } virtual ~B() {} };
struct A : virtual B {
  A() { this->tell(); }
  virtual ~A() { B* b = this; D* d = dynamic_cast<D*>(b); print(d); print(typeid(*b)); }
};
struct D : A { virtual void tell() { print(2); } };
int main() { B* b = new D; b->tell(); D* d = dynamic_cast<D*>(b); print(d); delete b; }
