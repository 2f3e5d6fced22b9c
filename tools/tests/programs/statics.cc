#include <cstdio>
struct T { const char *name; T(const char *n) : name(n) { printf("made %s\n", name); } ~T() { printf("ended %s\n", name); } };
T first("first");
static T second("second");
struct H { static T third; static int n; };
T H::third("third");
int H::n = 4;
int calls() { static int n = H::n; static T inner("inner"); return n++; }
int main() { printf("main\n"); calls(); calls(); printf("%d\n", calls()); }
