struct V {
  long v;
  V() : v(0) { this->f(); }
  virtual void f() { print(1); }
  virtual ~V() { this->f(); }
};
struct B1 : virtual V {
  long b1;
  B1() { this->f(); }
  virtual void f() { print(2); }
  virtual ~B1() { this->f(); }
};
struct B2 : virtual V {
  long b2;
  B2() { this->f(); }
  virtual ~B2() { this->f(); }
};
struct D : B1, B2 {
  long d;
  D() { this->f(); }
  virtual void f() { print(3); }
  virtual ~D() { this->f(); }
};
int main() {
  V* p = new D;
  p->f();
  delete p;
}
