/* Writes the layouts of the classes on standard input: cc library/example.c -Ilibrary build/libtagymelur.a -o example */
#include "tagymelur.h"
#include <stdio.h>

static uint8_t source[262145], text[1 << 20];

int main(void) {
    static const uint8_t words[] = "layout"; /* the byte 0 at its end ends the word */
    size_t length = fread(source, 1, sizeof source, stdin), written = 0;
    uint8_t status = tagymelur_answer(words, sizeof words, source, length, text, sizeof text, &written);
    fwrite(text, 1, written, stdout);
    return status;
}
