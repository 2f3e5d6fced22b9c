struct O { virtual void f(int); virtual void f(char); void f(long); virtual void f(int) const; };
struct Q : O { void f(char); };
