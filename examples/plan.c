#include <stdio.h>
#include "shortest.h"

static uint8_t task[65537], actions[SHORTEST_MOST_ACTIONS], facts[SHORTEST_MOST_FACTS];
static uint8_t reduced[SHORTEST_MOST_REDUCED], origin[SHORTEST_MOST_ORIGIN], plan[SHORTEST_MOST_PLAN];
static struct shortest_entry table[SHORTEST_MOST_ENTRIES];

int main(void) {
    uint64_t out[SHORTEST_NUMBERS];
    size_t length = fread(task, 1, sizeof task, stdin);
    shortest_plan(task, length, 4, 1, actions, sizeof actions, facts, sizeof facts, reduced, sizeof reduced,
                  origin, sizeof origin, table, SHORTEST_MOST_ENTRIES, plan, sizeof plan, out);
    for (uint64_t i = 0; i < out[SHORTEST_STEPS]; i++)
        printf("step %d\n", plan[4 + 2 * i] + 256 * plan[5 + 2 * i]);
    printf("outcome %d cost %lld\n", (int)out[SHORTEST_NUMBER], (long long)out[SHORTEST_COST]);
}
