/* A malloc that refuses each request of the program that it is linked to. */
#include <stdlib.h>

void *malloc(size_t size) { return (void)size, NULL; }
void *calloc(size_t count, size_t size) { return (void)count, (void)size, NULL; }
void *realloc(void *block, size_t size) { return (void)block, (void)size, NULL; }
void free(void *block) { (void)block; }
