struct T { virtual int f() { return 1; } };
int main() {
    T *t = 0;
    return t->f();
}
