struct A { int x;
