struct T { int n; };
int main() {
    T *t = new T;
    t->n = 1;
    delete t;
    return t->n;
}
