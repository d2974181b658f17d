/* What the files of this folder share. The crate's calls have the names of the header; `symbols` gives those that are called here
 * others, in whose place vialshoal.h's are. */
#ifndef VIALSHOAL_CRATE_H
#define VIALSHOAL_CRATE_H

#include "../vialshoal.h"

#define INSIDE __attribute__((visibility("hidden")))
#define OF_THE_CRATE(name) INSIDE __typeof__(vialshoal_##name) vialshoal_c_##name

/* Of a pointer beside a length one that isn't null, since the crate takes slices, which have none. At length 0 nobody reads or writes
 * there. */
INSIDE void *vialshoal_c_some(const void *at, size_t length);

#endif
