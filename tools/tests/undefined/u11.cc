int f(int n) {
    if (n) return 1;
}
int main() { return f(0); }
