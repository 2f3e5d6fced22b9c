#include <cstdio>
#include <cstdlib>
struct T { ~T() { printf("~T\n"); } } t;
void stop(int n) { T local; if (n == 2) exit(3); printf("goes on\n"); }
int main() { stop(1); stop(2); printf("never\n"); }
