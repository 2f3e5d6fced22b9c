union Word { int i; float f; };
struct Bits { int low : 3; int high : 20; char last; };
struct HasUnion { Word word; union { char c; long l; }; union { short s[3]; } named; };
struct NeedsThat : HasUnion { };
struct Wide { char c; long double x; };
struct HoldsWide { char c; Wide w; __int128 i; _Complex double z; };
struct __attribute__((aligned(16))) Aligned { int x; };
#pragma pack(push, 8)
struct Lone { int x; };
#pragma pack(pop)
struct __attribute__((packed)) Packed { char c; int i; };
struct HoldsPacked { char c; Packed p; };
struct Buffer { char c; char bytes[16] __attribute__((aligned(8))); };
struct Unnamed { struct { int a; } inside; Word* word; };
typedef int Four __attribute__((vector_size(16)));
struct Vector { Four v; Vector(); };
struct Tail { Tail(); long l : 40; unsigned char c : 2; };
struct Below : Tail { char d; };
