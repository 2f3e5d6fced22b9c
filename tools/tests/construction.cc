// Linked with examples/construction.cpp as C++: each print also tells to which table the virtual pointers of the object lead.
// A line has the number that is printed, and for each of the places 0, 16 and 40 a group of tables and how many bytes behind its
// start the address point lies, or 0 where the pointer is not set. The names are those of the ABI's mangling.
#include <cstdio>
#include <cstdlib>
#include <cstring>
#include <new>

extern char v[] asm("_ZTV1V");
extern char d[] asm("_ZTV1D");
extern char b1_in_d[] asm("_ZTC1D0_2B1");
extern char b2_in_d[] asm("_ZTC1D16_2B2");

static char *object;

void *operator new(std::size_t size) throw(std::bad_alloc) {
    object = static_cast<char *>(std::calloc(1, size));
    if (object == NULL)
        std::abort();
    return object;
}

void operator delete(void *block) throw() {
    std::free(block);
}

void operator delete(void *block, std::size_t) throw() {
    std::free(block);
}

static void tell(int place) {
    const char *names[] = {"V", "D", "B1", "B2"};
    char *const groups[] = {v, d, b1_in_d, b2_in_d};
    char *point;
    std::memcpy(&point, object + place, sizeof point);
    int nearest = -1;
    for (int n = 0; n < 4; n++)
        if (groups[n] <= point && (nearest < 0 || groups[n] > groups[nearest]))
            nearest = n;
    if (nearest < 0)
        std::printf(" 0");
    else
        std::printf(" %s+%ld", names[nearest], static_cast<long>(point - groups[nearest]));
}

void print(int number) {
    std::printf("%d", number);
    tell(0);
    tell(16);
    tell(40);
    std::printf("\n");
}
