/* calls SAMPLES RECORDS: what include/tonekit.h says of calls and buffers, on the sample in the one folder and its record in the
 * other. It is built as C and as C++. */
#include "case.h"

static File pack, query, sheet, record;

static void versions(void)
{
    char text[32];
    snprintf(text, sizeof text, "%d.%d.%d", TONEKIT_VERSION_MAJOR, TONEKIT_VERSION_MINOR, TONEKIT_VERSION_PATCH);
    check("the version's numbers are its text's", strcmp(text, TONEKIT_VERSION) == 0);
}

/* The longest inputs are made of the limits and of the records' sizes. */
static void limits(void)
{
    check("the longest pack",
          TONEKIT_PACK_MAX == TONEKIT_SETTINGS_SIZE + TONEKIT_TONES_MAX * (TONEKIT_TONE_SIZE + TONEKIT_TAIL_SIZE)
                                  + TONEKIT_ACCENTS_MAX * TONEKIT_ACCENT_SIZE + TONEKIT_RULES_MAX * TONEKIT_RULE_SIZE
                                  + TONEKIT_PARTS_MAX * TONEKIT_PART_SIZE + TONEKIT_END_SIZE);
    check("the longest sheet",
          TONEKIT_SHEET_MAX == TONEKIT_SETTINGS_SIZE
                                   + TONEKIT_TONES_MAX * (TONEKIT_SHEET_TONE_SIZE + TONEKIT_TAIL_SIZE)
                                   + TONEKIT_ACCENTS_MAX * TONEKIT_SHEET_ACCENT_SIZE + TONEKIT_ROWS_MAX * TONEKIT_ROW_SIZE
                                   + TONEKIT_LISTS_MAX * TONEKIT_LIST_SIZE + TONEKIT_COMPONENTS_MAX * TONEKIT_COMPONENT_SIZE
                                   + TONEKIT_END_SIZE);
    check("the longest query", TONEKIT_QUERY_MAX == TONEKIT_QUERY_SIZE(TONEKIT_FRAMES_MAX) + TONEKIT_COLD_SIZE);
    check("the most rows", TONEKIT_ROWS_MAX == TONEKIT_ACCENTS_MAX * TONEKIT_TONES_MAX * (TONEKIT_TONES_MAX + 1));
}

static void accepted(void)
{
    uint8_t out[TONEKIT_SHEET_MAX];
    uint64_t n = 99;
    check("the sample's pack loads", answered(tonekit_check_pack(pack.bytes, pack.length, &n), &n, TONEKIT_ACCEPTED, 0));
    check("its query loads", answered(tonekit_check_query(query.bytes, query.length, &n), &n, TONEKIT_ACCEPTED, 0));
    check("its sheet loads", answered(tonekit_check_sheet(sheet.bytes, sheet.length, &n), &n, TONEKIT_ACCEPTED, 0));
    check("the pack's sheet", tonekit_write_sheet(pack.bytes, pack.length, out, sizeof out, &n) == TONEKIT_ACCEPTED
                                  && n == sheet.length && memcmp(out, sheet.bytes, sheet.length) == 0);
    check("the record from the pack",
          answered(tonekit_judge(pack.bytes, pack.length, query.bytes, query.length, out, sizeof out, &n), &n, 0, 64)
              && record.length == n && memcmp(out, record.bytes, record.length) == 0);
    memset(out, 0, sizeof out);
    check("the record from the sheet",
          answered(tonekit_judge_sheet(sheet.bytes, sheet.length, query.bytes, query.length, out, sizeof out, &n), &n, 0, 64)
              && memcmp(out, record.bytes, record.length) == 0);
    check("the shape", answered(tonekit_write_shape(query.bytes, query.length, out, sizeof out, &n), &n, 0, TONEKIT_SHAPE_SIZE)
                           && out[0] == TONEKIT_KIND_SHAPE);
    check("what the record says", record.bytes[0] == TONEKIT_KIND_JUDGEMENT && record.bytes[TONEKIT_EXPECTED] == 3
                                      && record.bytes[TONEKIT_HEARD] == 3 && record.bytes[TONEKIT_MEASURED] == TONEKIT_FULL);
}

/* Buffers that are exact, a byte short, and longer; at odd addresses. */
static void buffers(void)
{
    uint8_t out[TONEKIT_JUDGEMENT_SIZE + 9], before[sizeof out];
    static uint8_t odd[TONEKIT_PACK_MAX + 1];
    uint64_t n;
    memset(before, 0xA5, sizeof before);
    memcpy(out, before, sizeof out);
    check("a byte short: 9 with the length needed, and the buffer as it was",
          answered(tonekit_judge(pack.bytes, pack.length, query.bytes, query.length, out, TONEKIT_JUDGEMENT_SIZE - 1, &n), &n,
                   TONEKIT_SHORT_BUFFER, TONEKIT_JUDGEMENT_SIZE)
              && memcmp(out, before, sizeof out) == 0);
    memcpy(odd + 1, pack.bytes, pack.length);
    check("odd addresses, a longer buffer, and the bytes behind the record",
          answered(tonekit_judge(odd + 1, pack.length, query.bytes, query.length, out + 1, sizeof out - 1, &n), &n, 0, 64)
              && out[0] == 0xA5 && memcmp(out + 1, record.bytes, 64) == 0 && memcmp(out + 65, before, sizeof out - 65) == 0);
    check("two inputs may be the same bytes",
          answered(tonekit_judge(pack.bytes, pack.length, pack.bytes, pack.length, out, sizeof out, &n), &n, TONEKIT_MISPLACED, 0));
}

/* NULL with length 0, for every argument that may be. */
static void nothing(void)
{
    uint8_t out[TONEKIT_SHAPE_SIZE];
    uint64_t n;
    check("no pack", answered(tonekit_check_pack(NULL, 0, &n), &n, TONEKIT_CUT_SHORT, 0));
    check("no query", answered(tonekit_check_query(NULL, 0, &n), &n, TONEKIT_CUT_SHORT, 0));
    check("no sheet", answered(tonekit_check_sheet(NULL, 0, &n), &n, TONEKIT_CUT_SHORT, 0));
    check("no query to shape", answered(tonekit_write_shape(NULL, 0, out, sizeof out, &n), &n, TONEKIT_CUT_SHORT, 0));
    check("no pack to write", answered(tonekit_write_sheet(NULL, 0, out, sizeof out, &n), &n, TONEKIT_CUT_SHORT, 0));
    check("no query to judge",
          answered(tonekit_judge(pack.bytes, pack.length, NULL, 0, out, sizeof out, &n), &n, TONEKIT_CUT_SHORT, 0));
    check("nothing at all", answered(tonekit_judge(NULL, 0, NULL, 0, NULL, 0, &n), &n, TONEKIT_CUT_SHORT, 0));
    check("nothing at all, of a sheet", answered(tonekit_judge_sheet(NULL, 0, NULL, 0, NULL, 0, &n), &n, TONEKIT_CUT_SHORT, 0));
    check("no room for a record", answered(tonekit_judge(pack.bytes, pack.length, query.bytes, query.length, NULL, 0, &n), &n,
                                           TONEKIT_SHORT_BUFFER, TONEKIT_JUDGEMENT_SIZE));
    check("no room, from a sheet",
          answered(tonekit_judge_sheet(sheet.bytes, sheet.length, query.bytes, query.length, NULL, 0, &n), &n, TONEKIT_SHORT_BUFFER,
                   TONEKIT_JUDGEMENT_SIZE));
    check("no room for a shape", answered(tonekit_write_shape(query.bytes, query.length, NULL, 0, &n), &n, TONEKIT_SHORT_BUFFER,
                                          TONEKIT_SHAPE_SIZE));
    check("no room for a sheet", answered(tonekit_write_sheet(pack.bytes, pack.length, NULL, 0, &n), &n, TONEKIT_SHORT_BUFFER,
                                          sheet.length));
}

/* Refusals 1 to 4 are the same of a pack and of a query; a check of the pack tells which. */
static void which_input(void)
{
    uint8_t out[TONEKIT_JUDGEMENT_SIZE];
    uint64_t n;
    check("a pack that is cut",
          answered(tonekit_judge(pack.bytes, 5, query.bytes, query.length, out, sizeof out, &n), &n, TONEKIT_CUT_SHORT, 0)
              && answered(tonekit_check_pack(pack.bytes, 5, &n), &n, TONEKIT_CUT_SHORT, 0));
    check("a query that is cut",
          answered(tonekit_judge(pack.bytes, pack.length, query.bytes, 5, out, sizeof out, &n), &n, TONEKIT_CUT_SHORT, 0)
              && answered(tonekit_check_pack(pack.bytes, pack.length, &n), &n, TONEKIT_ACCEPTED, 0));
}

/* The sample's query as a cold one: kind 55 behind its record, floor and ceiling of any bits. */
static void cold(void)
{
    static uint8_t asked[TONEKIT_QUERY_MAX + 1];
    uint8_t out[TONEKIT_SHAPE_SIZE], again[TONEKIT_JUDGEMENT_SIZE];
    uint64_t n, length = query.length + TONEKIT_COLD_SIZE;
    memcpy(asked, query.bytes, TONEKIT_QUERY_RECORD_SIZE);
    memset(asked + TONEKIT_QUERY_FLOOR, 0xFF, 8);
    asked[TONEKIT_QUERY_RECORD_SIZE] = TONEKIT_KIND_COLD;
    memcpy(asked + TONEKIT_QUERY_RECORD_SIZE + TONEKIT_COLD_SIZE, query.bytes + TONEKIT_QUERY_RECORD_SIZE,
           query.length - TONEKIT_QUERY_RECORD_SIZE);
    check("a cold query loads", answered(tonekit_check_query(asked, length, &n), &n, TONEKIT_ACCEPTED, 0));
    check("its shape says that the register is a first estimate",
          answered(tonekit_write_shape(asked, length, out, sizeof out, &n), &n, 0, TONEKIT_SHAPE_SIZE)
              && out[TONEKIT_SHAPE_ISSUES] == TONEKIT_ISSUE_COLD_START_REGISTER);
    check("so does its record from the pack, and it is measured",
          answered(tonekit_judge(pack.bytes, pack.length, asked, length, out, sizeof out, &n), &n, 0, TONEKIT_JUDGEMENT_SIZE)
              && out[TONEKIT_ISSUES] == TONEKIT_ISSUE_COLD_START_REGISTER && out[TONEKIT_MEASURED] == TONEKIT_PARTIAL);
    check("its record from the sheet is the same",
          answered(tonekit_judge_sheet(sheet.bytes, sheet.length, asked, length, again, sizeof again, &n), &n, 0,
                   TONEKIT_JUDGEMENT_SIZE)
              && memcmp(again, out, sizeof again) == 0);
    asked[TONEKIT_QUERY_RECORD_SIZE + TONEKIT_COLD_SIZE] = TONEKIT_KIND_COLD;
    check("a second kind 55 is not due",
          answered(tonekit_check_query(asked, length, &n), &n, TONEKIT_MISPLACED, TONEKIT_QUERY_RECORD_SIZE + TONEKIT_COLD_SIZE));
}

int main(int count, char **names)
{
    if (count != 3) {
        fprintf(stderr, "calls SAMPLES RECORDS\n");
        return 2;
    }
    load(&pack, names[1], "sample.pack");
    load(&query, names[1], "sample.query");
    load(&sheet, names[1], "sample.sheet");
    load(&record, names[2], "sample.record");
    versions();
    limits();
    accepted();
    buffers();
    nothing();
    which_input();
    cold();
    return failures != 0;
}
