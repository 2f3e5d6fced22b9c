#include <cstdio>
struct T { int n; T(int k) : n(k) { printf("T %d\n", n); } ~T() { printf("end %d\n", n); } };
struct functions { int print; functions(int dump) : print(dump) {} int call() { return print; } };
struct text { int texts; };
T b(1), e(2), last(3), status(4), mark(5), bad(6), turn(7), t(8);
int all = 9;
T &kept() { static T is_last(10); return is_last; }
int run(int print) { return print; }
int main() {
    functions bool_(11);
    text texts;
    texts.texts = 12;
    printf("%d %d %d %d %d\n", bool_.call(), all, kept().n, run(13), texts.texts);
    return 3;
}
