struct Other;
struct P { int* numbers; Other* other; P& self; void (*call)(int); const char* names[3]; P* next; };
