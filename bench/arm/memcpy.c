/* Copying byte by byte, for bench/arm/symbols: the C library's memcpy loads words that are not aligned where it is handed such addresses, and what is looked for
   are those that the object files load themselves. */
#include <stddef.h>

void __aeabi_memcpy(void *to, const void *from, size_t bytes);
void __aeabi_memcpy4(void *to, const void *from, size_t bytes);

void __aeabi_memcpy(void *to, const void *from, size_t bytes) {
    unsigned char *t = to;
    const unsigned char *f = from;
    while (bytes--) *t++ = *f++;
}

void __aeabi_memcpy4(void *to, const void *from, size_t bytes) { __aeabi_memcpy(to, from, bytes); }
