int main() {
    int i = 2147483647;
    i++;
    return i > 0;
}
