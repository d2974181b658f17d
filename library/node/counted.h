/* How many bytes of memory this thread has taken for the library, and not given back. */
#ifndef COUNTED_H
#define COUNTED_H

#include <stdint.h>

extern _Thread_local int64_t vialshoal_held;

#endif
