#include <cstdio>
struct Tree { int n; Tree *left, *right; Tree(int k) : n(k), left(0), right(0) {} ~Tree() { delete left; delete right; } };
void insert(Tree *&t, int n) { if (!t) t = new Tree(n); else insert(n < t->n ? t->left : t->right, n); }
int depth(Tree *t) { if (!t) return 0; int a = depth(t->left), b = depth(t->right); return 1 + (a > b ? a : b); }
void show(Tree *t) { if (t) { show(t->left); printf("%d\n", t->n); show(t->right); } }
int main() { Tree *t = 0; for (int i = 0; i < 7; i++) insert(t, i * 5 % 7); show(t); printf("depth %d\n", depth(t)); delete t; }
