/* packet DIR: judges the packet in DIR. packet DIR HEIGHT [SIZE]: searches its first strip within that height, and of at most SIZE bytes. Prints the line that ./desk prints, and a
 * strip that is found after it. */
#include "desk.h"
#include <stdio.h>
#include <stdlib.h>

/* One byte more than a file may have, so that a longer one is seen to be longer. */
struct file {
    uint8_t bytes[DESK_BYTES + 1];
    size_t count;
};

static uint32_t room[DESK_ROOM];

/* A file that is missing counts as empty. */
static void load(struct file *file, const char *folder, const char *name) {
    char path[4096];
    file->count = 0;
    if (snprintf(path, sizeof path, "%s/%s", folder, name) >= (int)sizeof path) return;
    FILE *from = fopen(path, "rb");
    if (from == NULL) return;
    file->count = fread(file->bytes, 1, sizeof file->bytes, from);
    fclose(from);
}

static void refused(uint32_t number, uint64_t file, uint64_t place) {
    printf("refused %u %llu %llu\n", (unsigned)number, (unsigned long long)file, (unsigned long long)place);
}

int main(int count, char **words) {
    static struct file rules, goal, terms, strip;
    uint64_t first, second, third;
    if (count < 2 || count > 4) {
        fprintf(stderr, "usage: packet DIR [HEIGHT [SIZE]]\n");
        return 2;
    }
    load(&rules, words[1], "rules.sx");
    load(&goal, words[1], "goal.sx");
    load(&terms, words[1], "terms.sx");
    if (count == 2) {
        load(&strip, words[1], "strip.sx");
        uint32_t number = desk_judge(rules.bytes, rules.count, goal.bytes, goal.count, terms.bytes, terms.count, strip.bytes, strip.count, room, DESK_ROOM, &first, &second);
        if (number != 0) {
            refused(number, first, second);
            return 1;
        }
        printf("accepted %llu %llu\n", (unsigned long long)first, (unsigned long long)second);
        return 0;
    }
    size_t size = count == 4 ? strtoul(words[3], NULL, 10) : DESK_BYTES;
    if (size > DESK_BYTES) size = DESK_BYTES;
    uint32_t number = desk_propose(rules.bytes, rules.count, goal.bytes, goal.count, terms.bytes, terms.count, strtoul(words[2], NULL, 10),
                                   strip.bytes, size, room, DESK_ROOM, &first, &second, &third);
    if (number != 0) {
        refused(number, first, second);
        return 1;
    }
    printf("found %llu %llu %llu\n%.*s\n", (unsigned long long)first, (unsigned long long)second, (unsigned long long)third, (int)third, (const char *)strip.bytes);
    return 0;
}
