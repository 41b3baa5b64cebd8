/* What syncs.c counts, in the file that the variable SYNCS names, for all processes that have it preloaded. */
#include <stdatomic.h>
#include <stdint.h>

enum { SYNCS_KEPT = 1 << 20 };

typedef struct {
    _Atomic uint64_t count;
    float took[SYNCS_KEPT]; /* microseconds, of the first ones */
} syncs;
