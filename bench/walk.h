/* The router of docs/BEHAVIOUR.md in plain C, by hand: what Tzaquedda's is measured beside. Both walk along the shards; `tested_walk` tests the
 * directory's rules on the way, as tzq_route does at each call, `bare_walk` trusts them and stops behind the query. */
#include "tzaquedda.h"

typedef tzq_shards router(uint64_t rate, const uint64_t *firsts, size_t firsts_length, const uint64_t *ends, size_t ends_length,
                          int64_t length, const uint8_t *label, size_t label_length);

router tested_walk, bare_walk;
