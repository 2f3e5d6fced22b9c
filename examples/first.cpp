struct P { int x; char c; }; int main() { P* p = new P; p->x = 5; int y = p->x; print(y); }
