/* Document 01's first figure, from C: rows (1, 4, 2) and (2, 6, 3), a new channel with C 3 at the lowest place. */
#include "../include/byanghosu.h"
#include <inttypes.h>
#include <stdio.h>

int main(void) {
    const uint64_t table[] = {1, 4, 2, 2, 6, 3};
    for (uint64_t limit = 11; limit >= 8; limit--) {
        uint64_t response, trials, place;
        uint64_t refusal = byanghosu_response(table, sizeof table / sizeof *table, 3, limit, &response, &trials, &place);
        if (refusal != BYANGHOSU_RAN)
            printf("limit %" PRIu64 ": refused %" PRIu64 ", %s\n", limit, refusal, byanghosu_text(refusal));
        else if (response == 0)
            printf("limit %" PRIu64 ": no response, %" PRIu64 " trials\n", limit, trials);
        else
            printf("limit %" PRIu64 ": response %" PRIu64 ", %" PRIu64 " trials\n", limit, response, trials);
    }
    return 0;
}
