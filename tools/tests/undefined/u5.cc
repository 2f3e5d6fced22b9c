struct T { int n; T() {} };
int main() {
    T t;
    return t.n == 7;
}
