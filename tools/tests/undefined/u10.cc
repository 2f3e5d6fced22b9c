struct T { int n; T() { delete this; } };
int main() {
    T *t = new T;
    return t == 0;
}
