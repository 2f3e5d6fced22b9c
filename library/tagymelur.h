/* The whole program as one function. docs/DATA.md says what is proved of it, and what a caller owes. */
#ifndef TAGYMELUR_H
#define TAGYMELUR_H

#include <stddef.h>
#include <stdint.h>

#ifdef __cplusplus
extern "C" {
#endif

/* Answers words and a source as the program does: the text goes into the front of `text`, its length into `written`.
   Each word ends with a byte 0. The result is the status of the program: 0 done, 1 refused, 2 usage, 3 undefined, 4 out of steps, 5 limit;
   7 where `text` is too small and has a front of the answer, 8 where there was no memory, 9 where a word is no UTF-8.
   The pointers are not null, and each has so many bytes as the length behind it says. */
uint8_t tagymelur_answer(const uint8_t *words, size_t words_length, const uint8_t *source, size_t source_length,
                         uint8_t *text, size_t text_length, size_t *written);

#ifdef __cplusplus
}
#endif
#endif
