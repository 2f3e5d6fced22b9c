struct S { bool b; signed char c; wchar_t w; float f; double d; unsigned long long u; };
