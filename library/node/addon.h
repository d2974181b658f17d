/* What the parts of the addon have in common. */
#ifndef ADDON_H
#define ADDON_H

#include <node_api.h>

#include "vialshoal.h"

#define MOST 8
/* No message is longer. */
#define MESSAGE 10297

#define TRY(call)                                                          \
    do {                                                                   \
        if ((call) != napi_ok) {                                           \
            napi_throw_error(env, NULL, "vialshoal: an argument is none"); \
            return NULL;                                                   \
        }                                                                  \
    } while (0)

/* The numbers of a call's answer as an array. */
#define ANSWER(...) answer(env, sizeof((double[]){__VA_ARGS__}) / sizeof(double), (double[]){__VA_ARGS__})

/* What JavaScript has of a text, of one as it was, or of a note. */
typedef struct {
    enum { TEXT, PAST, NOTE } kind;
    vialshoal_text text;
    vialshoal_past_text past;
    vialshoal_note note;
    /* How long the last file of it was. */
    uint64_t filed;
    /* How many bytes it holds, and of how many the collector was told. */
    int64_t holds, told;
} shown;

typedef struct {
    const char *name;
    napi_callback call;
} named_call;

/* The calls of notes; the last one has no name. */
extern const named_call NOTE_CALLS[];

/* The memory that the call which runs takes or gives back is this one's. */
void touch(shown *it);

/* The numbers as an array: the first is the call's own. */
napi_value answer(napi_env env, size_t count, const double *numbers);

/* What was opened, or the number that refused it. */
napi_value opened(napi_env env, shown *it, uint32_t number);

bool number_of(napi_env env, napi_value value, uint64_t *number);
bool bytes_of(napi_env env, napi_value value, const uint8_t **bytes, size_t *length);
bool numbers_of(napi_env env, napi_value value, const uint32_t **numbers, size_t *length);

/* Fronts, and ranges of names, which are given as so many numbers each; they are to be freed, and are null where memory was refused. */
bool fronts_of(napi_env env, napi_value value, vialshoal_site_front **fronts, size_t *count);
bool name_ranges_of(napi_env env, napi_value value, vialshoal_name_range **names, size_t *count);

#endif
