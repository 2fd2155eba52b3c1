/* judge PACK QUERY: judges the query in one file against the pack in the other, and prints what was heard. */
#include <stdio.h>
#include <string.h>

#include "tonekit.h"

static uint8_t pack[TONEKIT_PACK_MAX + 1];
static uint8_t query[TONEKIT_QUERY_MAX + 1];

/* One byte more than can load: a longer file is refused as overrun, or earlier. */
static uint64_t load(const char *name, uint8_t *bytes, size_t room)
{
    FILE *file = fopen(name, "rb");
    if (!file) {
        perror(name);
        return 0;
    }
    uint64_t length = fread(bytes, 1, room, file);
    fclose(file);
    return length;
}

static float f32_at(const uint8_t *bytes)
{
    uint32_t bits = bytes[0] | bytes[1] << 8 | bytes[2] << 16 | (uint32_t)bytes[3] << 24;
    float value;
    memcpy(&value, &bits, sizeof value);
    return value;
}

int main(int count, char **names)
{
    uint8_t record[TONEKIT_JUDGEMENT_SIZE];
    uint64_t place;
    if (count != 3) {
        fprintf(stderr, "judge PACK QUERY\n");
        return 2;
    }
    uint64_t packed = load(names[1], pack, sizeof pack);
    uint64_t asked = load(names[2], query, sizeof query);
    uint32_t refusal = tonekit_judge(pack, packed, query, asked, record, sizeof record, &place);
    if (refusal) {
        printf("refused: %u at %llu\n", refusal, (unsigned long long)place);
        return 1;
    }
    printf("expected tone %d, heard %d, log-likelihood ratio %.4f\n", record[TONEKIT_EXPECTED], record[TONEKIT_HEARD],
           f32_at(record + TONEKIT_LLR));
    if (record[TONEKIT_DISTANCED])
        printf("best curve: accent %d, form %d, label %d, part %d, distance %.4f\n", record[TONEKIT_OWNER], record[TONEKIT_FORM],
               record[TONEKIT_LABEL] | record[TONEKIT_LABEL + 1] << 8, record[TONEKIT_PART], f32_at(record + TONEKIT_DISTANCE));
    for (int i = 0; i < record[TONEKIT_DELTAS]; i++)
        printf("delta of kind %d by %.4f\n", record[TONEKIT_DELTAS + 1 + 5 * i], f32_at(record + TONEKIT_DELTAS + 2 + 5 * i));
    return 0;
}
