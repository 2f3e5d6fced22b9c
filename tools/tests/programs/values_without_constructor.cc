#include <cstdio>
struct P { int x; struct In { char c; long l[2]; } in; P *next; };
P global;
int zero() { return int(); }
int main() {
    P p = P();
    P *q = new P();
    P r = {1, {'a', {2, 3}}, &p};
    static P s;
    printf("%d %d %d %ld\n", p.x, q->in.c, p.next == 0, r.in.l[1]);
    printf("%d %d %ld %d\n", global.x, r.next == &p, s.in.l[1], zero());
    delete q;
}
