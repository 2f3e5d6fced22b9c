#include <cstdio>
struct Node { int n; Node *next; };
int main() {
    Node c = {3, 0}, b = {2, &c}, a = {1, &b};
    Node *p = &a;
    while (p) {
        printf("%d\n", p->n);
        p = p->next;
    }
    int n = 27, steps = 0;
    while (n != 1) {
        n = n % 2 ? 3 * n + 1 : n / 2;
        steps++;
    }
    printf("%d\n", steps);
}
