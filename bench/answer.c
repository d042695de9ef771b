/* examples/box.c with every answer asked for TIMES times: see bench/answer. */
#include "dullavane.h"

/* A macro's own name is not replaced again inside it: the call is the library's. */
#define dullavane_answer(...)                                                       \
    ({                                                                              \
        uint32_t said = 0;                                                          \
        for (int asked = 0; asked < TIMES; asked++) said = dullavane_answer(__VA_ARGS__); \
        said;                                                                       \
    })

#include "../examples/box.c"
