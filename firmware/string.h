// Of the C library's <string.h> what the kit has.
#ifndef FOLDGNEISS_STRING_H
#define FOLDGNEISS_STRING_H

#include <stddef.h>

void *memcpy(void *to, const void *from, size_t count);
void *memmove(void *to, const void *from, size_t count);
void *memset(void *to, int byte, size_t count);
int memcmp(const void *left, const void *right, size_t count);
size_t strlen(const char *text);

#endif
