#pragma once
#include "stddef.h"
extern "C" void abort();
extern "C" void exit(int);
#define EXIT_SUCCESS 0
#define EXIT_FAILURE 1
