// Linked with a source as C++: keeps the start of the object that was made last, and its bytes are 0 until they are set.
#include <cstdio>
#include <cstdlib>
#include <new>

char *object;

void *operator new(std::size_t size) throw(std::bad_alloc) {
    object = static_cast<char *>(std::calloc(1, size));
    if (object == NULL)
        std::abort();
    return object;
}

void operator delete(void *block) throw() {
    std::free(block);
}

void operator delete(void *block, std::size_t) throw() {
    std::free(block);
}

void print(int number) {
    std::fprintf(stderr, "%d\n", number);
}
