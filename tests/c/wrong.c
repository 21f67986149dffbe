/* Three wrong uses of the library, by the word that is given. A sanitizer must end each: short and freed are for the address
 * sanitizer, odd for that of undefined behaviour. */
#include "../../include/byanghosu.h"
#include <inttypes.h>
#include <stdio.h>
#include <stdlib.h>
#include <string.h>

/* A store on the heap, `numbers` long, whose length is always said to be BYANGHOSU_STORE. */
static uint64_t *room_in(size_t numbers) {
    const uint64_t links[] = {0, 1, 0, 64};
    uint64_t *store = (uint64_t *)malloc(sizeof *store * numbers), place;
    if (store == NULL || byanghosu_set_up(store, BYANGHOSU_STORE, links, 4, &place) != BYANGHOSU_RAN) exit(2);
    return store;
}

int main(int count, char **words) {
    const char *word = count == 2 ? words[1] : "";
    uint64_t *store = room_in(strcmp(word, "short") == 0 ? BYANGHOSU_STORE - 1 : BYANGHOSU_STORE);
    const char *clock = (const char *)(store + BYANGHOSU_AT_CLOCK) + (strcmp(word, "odd") == 0);
    if (strcmp(word, "freed") == 0) free(store);
    printf("%" PRIu64 "\n", *(const uint64_t *)(const void *)clock);
    if (strcmp(word, "freed") != 0) free(store);
    return 0;
}
