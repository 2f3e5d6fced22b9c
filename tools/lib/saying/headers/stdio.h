#pragma once
#include "stddef.h"
extern "C" int printf(const char *, ...);
extern "C" int puts(const char *);
extern "C" int putchar(int);
struct _IO_FILE;
typedef _IO_FILE FILE;
extern "C" FILE *stdout;
extern "C" FILE *stderr;
extern "C" int fflush(FILE *);
