/* tonekit for stations: the proved calls, for C and C++.
 *
 * Link libtonekit_c.a, which `tools/library` writes for x86-64; docs/CONTROLLER.md says how the same library is built
 * for Cortex-M, and what it takes of flash, stack and time. Nothing is allocated and nothing is kept between calls, so calls may
 * run side by side; inputs are only read. A call returns TONEKIT_ACCEPTED, 0, or the number of a refusal (TONEKIT_MISPLACED ..),
 * and stores through its last argument the bytes written (0 for a check), or the place of the refusal: the offset of the record
 * at fault in its input, the length needed for TONEKIT_SHORT_BUFFER, 0 for 11 to 15. A refused call leaves the output buffer as
 * it was; another leaves the bytes past its output.
 *
 * A call with two inputs takes the pack or sheet first. Refusals 1 to 4 can come of either input and do not say which: where
 * tonekit_check_pack (or tonekit_check_sheet) accepts the first, the query is at fault. 5 to 8 are of the pack or sheet, 20 of
 * the pack, 10 of the query.
 *
 * What the caller owes; the library cannot check it:
 * - Each pointer is valid for its length, in bytes. With length 0 it may be NULL; the last argument may not. Any bytes may be
 *   handed in, at any address, in memory that nothing changes before the call returns (another thread, another mapping of a file).
 * - The output buffer and the last argument overlap neither each other nor an input; two inputs may overlap. The last argument is
 *   aligned as a uint64_t. TONEKIT_JUDGEMENT_SIZE, TONEKIT_SHAPE_SIZE and TONEKIT_SHEET_MAX bytes of output buffer always suffice.
 * - The floating-point environment is the one in which C starts a program: rounding to nearest, subnormal numbers kept, exceptions
 *   masked. The proofs are about that arithmetic alone. What tests/header/run sees otherwise: rounding upward changes six floats of
 *   the sample's record (five log-likelihoods and the distance), and its sheet; in a program linked with gcc's -ffast-math, whose
 *   start-up flushes subnormal numbers to zero, a pack with a prior of 1e-40 is refused with 5; with the exception for invalid or
 *   for inexact results unmasked the sample traps. The sticky flags may be raised.
 * - On a controller, the stack that docs/CONTROLLER.md names.
 *
 * All integers in the formats are little-endian, floats IEEE 754 bits; records are packed, so read and write them by offset. A
 * record begins with its kind. docs/FORMATS.md has every layout, range and refusal, docs/RECORDS.md the meaning of every number.
 * Pitches are in Chao units, where 1 is the floor and 5 the ceiling of the speaker's register, unless another unit is named.
 * A frame is 10 ms: frames of another step give wrong durations, slopes, turn amounts and TONEKIT_ISSUE_TOO_SHORT, and no refusal.
 */
#ifndef TONEKIT_H
#define TONEKIT_H

#include <stdint.h>

/* The version of the library that this header declares. */
#define TONEKIT_VERSION "1.0.0"
#define TONEKIT_VERSION_MAJOR 1
#define TONEKIT_VERSION_MINOR 0
#define TONEKIT_VERSION_PATCH 0

#ifdef __cplusplus
extern "C" {
#endif

/* What a call returns: accepted, or a refusal. */
enum {
    TONEKIT_ACCEPTED = 0,
    TONEKIT_MISPLACED = 1,      /* a kind that is unknown or not due */
    TONEKIT_CUT_SHORT = 2,      /* the input ends before a record does, or one is missing */
    TONEKIT_OVERRUN = 3,        /* bytes after the last record */
    TONEKIT_CROWDED = 4,        /* a count passes its limit */
    TONEKIT_OFF_SCALE = 5,      /* a field is outside its range */
    TONEKIT_DOUBLED = 6,        /* a tone's or an accent's number is repeated */
    TONEKIT_LOOSE = 7,          /* names a tone, an accent or a list that is not there */
    TONEKIT_UNORDERED = 8,      /* a sheet that is not in its order */
    TONEKIT_SHORT_BUFFER = 9,   /* the output buffer is too short */
    TONEKIT_BAD_QUERY = 10,     /* a field of a query is outside its range */
    TONEKIT_UNVOICED = 11,      /* fewer than 3 voiced frames in the span */
    TONEKIT_UNKNOWN_ACCENT = 12, /* the pack or sheet does not hold the query's accent */
    TONEKIT_UNKNOWN_TONE = 13,  /* the tone before, or a tone asked for, is not held */
    TONEKIT_NO_REALISATION = 14, /* some tone has no curve in this context */
    TONEKIT_BAD_VARIANT = 15,   /* a variant's weight is below 0 or not finite, or their sum is above 1 */
    TONEKIT_ENDLESS_CHAIN = 20  /* a chain of a pack's parents never ends */
};

/* The largest inputs that load, and the outputs, in bytes. */
#define TONEKIT_PACK_MAX 7018
#define TONEKIT_SHEET_MAX 13338
#define TONEKIT_QUERY_MAX 10287
#define TONEKIT_SHAPE_SIZE 124
#define TONEKIT_JUDGEMENT_SIZE 64

/* Limits: how many there are at most; of points, always. */
#define TONEKIT_TONES_MAX 8
#define TONEKIT_ACCENTS_MAX 8
#define TONEKIT_RULES_MAX 64
#define TONEKIT_RULE_PARTS_MAX 4
#define TONEKIT_PARTS_MAX 128
#define TONEKIT_KNOTS_MAX 10
#define TONEKIT_POINTS 10
#define TONEKIT_ROWS_MAX 576
#define TONEKIT_LISTS_MAX 128
#define TONEKIT_LIST_COMPONENTS_MAX 4
#define TONEKIT_COMPONENTS_MAX 192
#define TONEKIT_VARIANTS_MAX 4
#define TONEKIT_FRAMES_MAX 1024

/* Sizes of records, with their kind. A pack's and a sheet's tail are alike. */
#define TONEKIT_SETTINGS_SIZE 9
#define TONEKIT_TONE_SIZE 56
#define TONEKIT_TAIL_SIZE 9
#define TONEKIT_ACCENT_SIZE 19
#define TONEKIT_RULE_SIZE 7
#define TONEKIT_PART_SIZE 46
#define TONEKIT_END_SIZE 1
#define TONEKIT_SHEET_TONE_SIZE 15
#define TONEKIT_SHEET_ACCENT_SIZE 18
#define TONEKIT_ROW_SIZE 6
#define TONEKIT_LIST_SIZE 7
#define TONEKIT_COMPONENT_SIZE 45
#define TONEKIT_REFUSAL_SIZE 6

/* A query is the record below, 46 bytes of kind 48, and then as many frames as it counts. Of a speaker without a register it is
 * cold: between the two stands one byte of kind 55, so that it is TONEKIT_COLD_SIZE longer and its frames begin a byte later. */
#define TONEKIT_QUERY_RECORD_SIZE 46
#define TONEKIT_COLD_SIZE 1
#define TONEKIT_FRAME_SIZE 10
#define TONEKIT_QUERY_SIZE(frames) (TONEKIT_QUERY_RECORD_SIZE + TONEKIT_FRAME_SIZE * (frames))

/* The first byte of a record. */
enum {
    TONEKIT_KIND_SETTINGS = 1,     /* of a pack: settings, tones, each with a tail or none, each accent with its rules, each rule
                                    * with its parts, end */
    TONEKIT_KIND_TONE = 2,
    TONEKIT_KIND_ACCENT = 3,
    TONEKIT_KIND_RULE = 4,
    TONEKIT_KIND_PART = 5,
    TONEKIT_KIND_END = 6,
    TONEKIT_KIND_TAIL = 7,         /* straight after a tone, if that has one */
    TONEKIT_KIND_SHEET_SETTINGS = 17, /* of a sheet: settings, each tone with its tail, accents, rows, each list with its
                                       * components, end */
    TONEKIT_KIND_SHEET_TONE = 18,
    TONEKIT_KIND_SHEET_ACCENT = 19,
    TONEKIT_KIND_ROW = 20,
    TONEKIT_KIND_LIST = 21,
    TONEKIT_KIND_COMPONENT = 22,
    TONEKIT_KIND_SHEET_END = 23,
    TONEKIT_KIND_SHEET_TAIL = 24,  /* straight after each tone */
    TONEKIT_KIND_QUERY = 48,
    TONEKIT_KIND_JUDGEMENT = 49,
    TONEKIT_KIND_FRAME = 50,
    TONEKIT_KIND_SHAPE = 51,
    TONEKIT_KIND_REFUSAL = 52,     /* written by the programs, not by the calls */
    TONEKIT_KIND_COLD = 55         /* straight after the query's record, or not there: the register is taken from the frames */
};

/* Offsets in a pack's records. */
enum {
    TONEKIT_SETTINGS_TEMPERATURE = 1, /* f32: log-likelihoods are divided by it; above 1 the tones are told apart less sharply */
    TONEKIT_SETTINGS_THRESHOLD = 5,   /* f32: the least posterior at which a tone is heard */
    TONEKIT_TONE_NUMBER = 1,       /* u8, not 0 */
    TONEKIT_TONE_PRIOR = 2,        /* f32: how likely the tone is beforehand */
    TONEKIT_TONE_KNOTS = 6,        /* u8: how many, 0 where the tone has a curve in context only; then 10 f32, evenly spaced */
    TONEKIT_TONE_REGION = 47,      /* u8: 1 where the tone has a region, in which points with little voice are left out */
    TONEKIT_TONE_FROM = 48,        /* f32: its beginning, as a fraction of the voiced part */
    TONEKIT_TONE_TO = 52,          /* f32: its end */
    TONEKIT_TAIL_FINAL = 1,        /* f32: what is added to the tone's log-likelihood where the issues have
                                    * TONEKIT_ISSUE_CREAKY_TAIL, at the end of a phrase; 0 in a tone without a tail */
    TONEKIT_TAIL_ELSEWHERE = 5,    /* f32: elsewhere */
    TONEKIT_ACCENT_NUMBER = 1,     /* u8, not 0 */
    TONEKIT_ACCENT_PARENT = 2,     /* u8: the accent, anywhere in the pack, whose rules serve where none here matches; 0 none */
    TONEKIT_ACCENT_CONTOUR = 3,    /* f32: tolerance of the contour, and of its range */
    TONEKIT_ACCENT_ONSET = 7,      /* f32: of its first point */
    TONEKIT_ACCENT_OFFSET = 11,    /* f32: of its last point */
    TONEKIT_ACCENT_TURNING = 15,   /* f32: of the turning point, as a fraction of the voiced part; for deltas alone */
    TONEKIT_RULE_LABEL = 1,        /* u16: for people, as a judgement names it */
    TONEKIT_RULE_TONE = 3,         /* u8: 0 any */
    TONEKIT_RULE_PREV = 4,         /* u8: the tone before, 0 any or none */
    TONEKIT_RULE_FINAL = 5,        /* u8: 0 any, 1 not at the end of a phrase, 2 at its end */
    TONEKIT_RULE_FORM = 6,         /* u8: 2 single, 3 mixture */
    TONEKIT_PART_WEIGHT = 1,       /* f32: its share in a mixture, 1 in a single rule */
    TONEKIT_PART_KNOTS = 5         /* u8: how many; then 10 f32 */
};

/* Offsets in a sheet's records; its settings and its tails are as a pack's. */
enum {
    TONEKIT_SHEET_TONE_NUMBER = 1, /* u8; this and the rest as in a pack */
    TONEKIT_SHEET_TONE_PRIOR = 2,  /* f32 */
    TONEKIT_SHEET_TONE_REGION = 6, /* u8 */
    TONEKIT_SHEET_TONE_FROM = 7,   /* f32 */
    TONEKIT_SHEET_TONE_TO = 11,    /* f32 */
    TONEKIT_SHEET_ACCENT_NUMBER = 1,   /* u8 */
    TONEKIT_SHEET_ACCENT_CONTOUR = 2,  /* f32 */
    TONEKIT_SHEET_ACCENT_ONSET = 6,    /* f32 */
    TONEKIT_SHEET_ACCENT_OFFSET = 10,  /* f32 */
    TONEKIT_SHEET_ACCENT_TURNING = 14, /* f32 */
    TONEKIT_ROW_ACCENT = 1,        /* u8 */
    TONEKIT_ROW_TONE = 2,          /* u8 */
    TONEKIT_ROW_PREV = 3,          /* u8: the tone before, 0 none */
    TONEKIT_ROW_LIST = 4,          /* u8: the list that is taken elsewhere than at the end of a phrase, 0 nothing */
    TONEKIT_ROW_FINAL_LIST = 5,    /* u8: at the end of a phrase */
    TONEKIT_LIST_NUMBER = 1,       /* u8: from 1 */
    TONEKIT_LIST_OWNER = 2,        /* u8: the accent whose rule it is; of a citation the graded one */
    TONEKIT_LIST_FORM = 3,         /* u8: 1 citation, 2 single, 3 mixture */
    TONEKIT_LIST_LABEL = 4,        /* u16: the rule's, 0 of a citation */
    TONEKIT_LIST_COUNT = 6,        /* u8: how many components follow */
    TONEKIT_COMPONENT_WEIGHT = 1,  /* f32 */
    TONEKIT_COMPONENT_POINTS = 5   /* 10 f32, evenly spaced in time */
};

/* Offsets in a query's record. In a cold query floor and ceiling are not looked at, whatever their bits: the register is from 2
 * semitones below the 5th percentile to 2 above the 95th of all its voiced frames, also those outside the span, and at least 4
 * semitones wide; and TONEKIT_ISSUE_COLD_START_REGISTER joins the issues. */
enum {
    TONEKIT_QUERY_ACCENT = 1,      /* u8: the accent to grade by */
    TONEKIT_QUERY_TONE = 2,        /* u8: the tone expected */
    TONEKIT_QUERY_PREV = 3,        /* u8: the tone before, 0 none */
    TONEKIT_QUERY_FINAL = 4,       /* u8: 1 at the end of a phrase, else 0 */
    TONEKIT_QUERY_START = 5,       /* u32: the span's first frame */
    TONEKIT_QUERY_END = 9,         /* u32: the frame after its last */
    TONEKIT_QUERY_FLOOR = 13,      /* f32: the speaker's register, in semitones above 55 Hz */
    TONEKIT_QUERY_CEIL = 17,       /* f32; where it is not above the floor, the register is read as 4 semitones wide */
    TONEKIT_QUERY_ISSUES = 21,     /* u16: TONEKIT_ISSUE_.., other bits clear */
    TONEKIT_QUERY_VARIANTS = 23,   /* u8: how many, at most 4; then 4 times a tone (u8) and a weight (f32), unused ones zero */
    TONEKIT_QUERY_FRAMES = 44      /* u16: how many, at most 1,024 */
};

/* Offsets in a frame, which stands for 10 ms. */
enum {
    TONEKIT_FRAME_VOICED = 1,      /* u8: 1 voiced, 0 not */
    TONEKIT_FRAME_HZ = 2,          /* f32: the pitch; ignored where it is not voiced */
    TONEKIT_FRAME_PROBABILITY = 6  /* f32: how sure the voicing is; it enters f0_confidence alone */
};

/* Bits of the issues of a query, a shape or a judgement. Each makes a judgement partial; some do more. */
enum {
    TONEKIT_ISSUE_UNVOICED = 0x0001,
    TONEKIT_ISSUE_LOW_SNR = 0x0002,             /* tolerances are 1.5 times as wide, and there are no deltas */
    TONEKIT_ISSUE_CLIPPED = 0x0004,             /* tolerances are 1.5 times as wide */
    TONEKIT_ISSUE_TOO_SHORT = 0x0008,           /* added under 8 frames of voiced part: onset and offset alone count */
    TONEKIT_ISSUE_COLD_START_REGISTER = 0x0010, /* tolerances are 1.5 times as wide; added to those of a cold query */
    TONEKIT_ISSUE_INVALID_REGISTER = 0x0020,
    TONEKIT_ISSUE_INVALID_EVIDENCE = 0x0040,    /* alone, where nothing was measured: the contour is not finite */
    TONEKIT_ISSUE_NO_NUCLEUS = 0x0080,
    TONEKIT_ISSUE_UNPITCHED = 0x0100,
    TONEKIT_ISSUE_CREAKY_TAIL = 0x0200          /* the tones' tails are added to log-likelihoods and to the target's */
};

/* Offsets in the record of a shape, kind 51. The voiced part is the frames from the first to the last voiced one of the span. */
enum {
    TONEKIT_SHAPE_START = 1,       /* u32: the query's span */
    TONEKIT_SHAPE_END = 5,         /* u32 */
    TONEKIT_SHAPE_CONTOUR = 9,     /* 10 f32, evenly spaced over the voiced part */
    TONEKIT_SHAPE_WEIGHTS = 49,    /* 10 f32: the share of voiced frames about each point */
    TONEKIT_SHAPE_MEAN = 89,       /* f32: of the ten points */
    TONEKIT_SHAPE_SLOPE = 93,      /* f32: Chao units a second, above 0 rising */
    TONEKIT_SHAPE_CURVATURE = 97,  /* f32: Chao units by the voiced part's time squared, above 0 dipping */
    TONEKIT_SHAPE_TURNS = 101,     /* u8: 1 where there is a turning point */
    TONEKIT_SHAPE_TURNING = 102,   /* f32: where, as a fraction of the voiced part */
    TONEKIT_SHAPE_RANGE = 106,     /* f32: greatest less least of the ten points */
    TONEKIT_SHAPE_DURATION = 110,  /* f32, ms: of the span */
    TONEKIT_SHAPE_FRACTION = 114,  /* f32: voiced frames over the span's frames */
    TONEKIT_SHAPE_CONFIDENCE = 118,/* f32: mean TONEKIT_FRAME_PROBABILITY of the voiced frames */
    TONEKIT_SHAPE_ISSUES = 122     /* u16: the query's, with TONEKIT_ISSUE_TOO_SHORT and TONEKIT_ISSUE_COLD_START_REGISTER */
};

/* Offsets in the record of a judgement, kind 49. */
enum {
    TONEKIT_EXPECTED = 1,          /* u8: the tone's number */
    TONEKIT_TONES = 2,             /* u8: how many tones are held */
    TONEKIT_LOGLIKS = 3,           /* 8 f32, in the pack's order of tones: natural logarithms, greater is nearer */
    TONEKIT_LLR = 35,              /* f32: of the expected tone against all tones by their priors; above 0 favours it */
    TONEKIT_DISTANCED = 39,        /* u8: 1 where there is a distance */
    TONEKIT_DISTANCE = 40,         /* f32: from the best curve of the target, in tolerances */
    TONEKIT_OWNER = 44,            /* u8: the accent whose curve it was, 0 none */
    TONEKIT_FORM = 45,             /* u8: 1 citation, 2 single, 3 mixture */
    TONEKIT_LABEL = 46,            /* u16: the rule's */
    TONEKIT_PART = 48,             /* u8: its place in a mixture, from 0 */
    TONEKIT_HEARD = 49,            /* u8: the tone's number, 0 none */
    TONEKIT_DELTAS = 50,           /* u8: how many; then twice a kind (u8, TONEKIT_START_HIGHER ..) and an amount (f32) */
    TONEKIT_MEASURED = 61,         /* u8: TONEKIT_FULL .. */
    TONEKIT_ISSUES = 62            /* u16 */
};

/* Offsets in a refusal that a program writes, kind 52. */
enum {
    TONEKIT_REFUSAL_NUMBER = 1,    /* u8 */
    TONEKIT_REFUSAL_PLACE = 2      /* u32 */
};

/* How far a syllable was measured: without issues, with some, or not, where the contour is not finite. */
enum { TONEKIT_FULL = 0, TONEKIT_PARTIAL = 1, TONEKIT_NOT_MEASURED = 2 };

/* Kinds of deltas: advice to the speaker. One who starts at 4 where 3 is expected is told to start lower. Amounts are not below
 * 0, in Chao units; of a turn in milliseconds. */
enum {
    TONEKIT_START_HIGHER = 1,
    TONEKIT_START_LOWER = 2,
    TONEKIT_END_HIGHER = 3,
    TONEKIT_END_LOWER = 4,
    TONEKIT_TURN_EARLIER = 5,
    TONEKIT_TURN_LATER = 6,
    TONEKIT_WIDER_RANGE = 7,
    TONEKIT_NARROWER_RANGE = 8
};

/* Whether the bytes are a pack, a sheet, or a query. */
uint32_t tonekit_check_pack(const uint8_t *pack, uint64_t pack_length, uint64_t *place);
uint32_t tonekit_check_sheet(const uint8_t *sheet, uint64_t sheet_length, uint64_t *place);
uint32_t tonekit_check_query(const uint8_t *query, uint64_t query_length, uint64_t *place);

/* Writes the shape record of a query. */
uint32_t tonekit_write_shape(const uint8_t *query, uint64_t query_length, uint8_t *out, uint64_t out_length, uint64_t *written);

/* Writes a pack's sheet: TONEKIT_SHEET_MAX bytes always suffice. */
uint32_t tonekit_write_sheet(const uint8_t *pack, uint64_t pack_length, uint8_t *out, uint64_t out_length, uint64_t *written);

/* Judges a query against a pack, or against a sheet, and writes the record: the same from a pack and from its sheet. */
uint32_t tonekit_judge(const uint8_t *pack, uint64_t pack_length, const uint8_t *query, uint64_t query_length, uint8_t *out,
                       uint64_t out_length, uint64_t *written);
uint32_t tonekit_judge_sheet(const uint8_t *sheet, uint64_t sheet_length, const uint8_t *query, uint64_t query_length,
                             uint8_t *out, uint64_t out_length, uint64_t *written);

/* Single functions, on the bits of f64s; tonekit_narrow gives the bits of the nearest f32. Tests compare them. */
uint64_t tonekit_ln(uint64_t bits);
uint64_t tonekit_log2(uint64_t bits);
uint64_t tonekit_exp(uint64_t bits);
uint64_t tonekit_root(uint64_t bits);
uint32_t tonekit_narrow(uint64_t bits);

/* The register of a new speaker, whose query is cold: of so many frames, at most 1,024, which stand in the bytes as in a query. It
 * gives the bits of three f32s. Tests compare it. */
void tonekit_cold_register(const uint8_t *frames, uint64_t frames_length, uint16_t count, uint32_t *floor, uint32_t *median,
                           uint32_t *ceil);

#ifdef __cplusplus
}
#endif

#endif
