struct T { T& operator=(const T&); int a; char c; };
struct U : T { char d; };
