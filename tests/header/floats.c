/* floats SAMPLES RECORDS kept|flushed: what the floating-point environment does to the calls; C alone, x86-64 with glibc. The
 * last word says how the program was linked: as usual, or with -ffast-math, whose start-up flushes subnormal numbers to zero. */
#define _GNU_SOURCE
#include <fenv.h>
#include <signal.h>
#include <sys/wait.h>
#include <unistd.h>

#include "case.h"

static File pack, query, sheet, record;

/* The sample's record and sheet with this rounding. */
static void judged(int rounding, uint8_t *out, uint8_t *sheet_out)
{
    uint64_t n;
    fesetround(rounding);
    tonekit_judge(pack.bytes, pack.length, query.bytes, query.length, out, TONEKIT_JUDGEMENT_SIZE, &n);
    tonekit_write_sheet(pack.bytes, pack.length, sheet_out, TONEKIT_SHEET_MAX, &n);
    fesetround(FE_TONEAREST);
}

/* Whether the f32 at an offset is another than the record's. */
static int differs(const uint8_t *out, int offset)
{
    return memcmp(out + offset, record.bytes + offset, 4) != 0;
}

static void roundings(void)
{
    static uint8_t out[TONEKIT_JUDGEMENT_SIZE], written[TONEKIT_SHEET_MAX];
    uint8_t expected[TONEKIT_JUDGEMENT_SIZE];
    int tone, logliks = 0;
    judged(FE_TONEAREST, out, written);
    check("to nearest: the sample's record and sheet", memcmp(out, record.bytes, sizeof out) == 0
                                                           && memcmp(written, sheet.bytes, sheet.length) == 0);
    judged(FE_UPWARD, out, written);
    for (tone = 0; tone < TONEKIT_TONES_MAX; tone++)
        logliks += differs(out, TONEKIT_LOGLIKS + 4 * tone);
    check("upward: five log-likelihoods and the distance differ", logliks == 5 && differs(out, TONEKIT_DISTANCE));
    memcpy(expected, record.bytes, sizeof expected);
    memcpy(expected + TONEKIT_LOGLIKS, out + TONEKIT_LOGLIKS, 32);
    memcpy(expected + TONEKIT_DISTANCE, out + TONEKIT_DISTANCE, 4);
    check("upward: nothing else of the record does", memcmp(out, expected, sizeof out) == 0);
    check("upward: the sheet differs", memcmp(written, sheet.bytes, sheet.length) != 0);
    judged(FE_DOWNWARD, out, written);
    check("downward: the record differs", memcmp(out, record.bytes, sizeof out) != 0);
    judged(FE_TONEAREST, out, written);
    check("to nearest again: the record is the sample's", memcmp(out, record.bytes, sizeof out) == 0);
}

/* A prior of 1e-40, which is subnormal, 0x000116C2: it is above 0 unless subnormal numbers are flushed. */
static void subnormal(int flushed)
{
    const uint8_t prior[4] = {0xC2, 0x16, 0x01, 0x00};
    uint64_t place;
    File changed = pack;
    memcpy(changed.bytes + TONEKIT_SETTINGS_SIZE + TONEKIT_TONE_PRIOR, prior, sizeof prior);
    uint32_t number = tonekit_check_pack(changed.bytes, changed.length, &place);
    if (flushed)
        check("flushed to zero: a prior of 1e-40 is refused with 5",
              answered(number, &place, TONEKIT_OFF_SCALE, TONEKIT_SETTINGS_SIZE));
    else
        check("subnormal numbers kept: a prior of 1e-40 loads", answered(number, &place, TONEKIT_ACCEPTED, 0));
}

/* The signal that ends a process which judges the sample with this exception unmasked; 0 for none. */
static int trapped(int exception)
{
    int status;
    pid_t child = fork();
    if (child == 0) {
        uint8_t out[TONEKIT_JUDGEMENT_SIZE];
        uint64_t n;
        feclearexcept(FE_ALL_EXCEPT);
        feenableexcept(exception);
        tonekit_judge(pack.bytes, pack.length, query.bytes, query.length, out, sizeof out, &n);
        _exit(0);
    }
    waitpid(child, &status, 0);
    return WIFSIGNALED(status) ? WTERMSIG(status) : 0;
}

int main(int count, char **names)
{
    if (count != 4) {
        fprintf(stderr, "floats SAMPLES RECORDS kept|flushed\n");
        return 2;
    }
    load(&pack, names[1], "sample.pack");
    load(&query, names[1], "sample.query");
    load(&sheet, names[1], "sample.sheet");
    load(&record, names[2], "sample.record");
    subnormal(strcmp(names[3], "flushed") == 0);
    roundings();
    fflush(stdout);
    check("the exception for invalid results unmasked: the sample traps", trapped(FE_INVALID) == SIGFPE);
    check("that for inexact ones: it traps", trapped(FE_INEXACT) == SIGFPE);
    return failures != 0;
}
