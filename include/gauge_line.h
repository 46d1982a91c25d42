// The gauge line: cell samples in, float levels out, through a CIC decimator, a 16-bit FIR, a cascade of half-band
// stages and a polyphase resampler. The archive is proved, in crates/gauge_line/src, to do what the comments below say;
// the inline functions only lend it the members of a struct.
//
// The caller owns the line and every buffer; nothing is allocated and there is no global state, so two threads may use
// two lines at once. What no proof covers is the caller's part:
//
// - a pointer points to as many elements as its length says; one whose length is 0 is not used;
// - what a call writes does not overlap what else is lent to it;
// - floats are rounded to nearest, and subnormal numbers are kept. -Ofast, -ffast-math and fesetround change that, and
//   with it the levels, silently: gauge_fp_environment_ok() says whether all is well.
//
// Parts of the headers are printed by host/bindings/run.sh from the archive's own declarations, between marks.
//
// Link with libgauge_line.a.
#ifndef GAUGE_LINE_H
#define GAUGE_LINE_H

#include "gauge_fp.h"
#include "gauge_raw.h"
#include "gauge_refusal.h"
#include <stdint.h>

#define GAUGE_VERSION "0.23.1"

#ifdef __cplusplus
extern "C" {
#endif

// What a line is opened with, beside its FIR taps and its prototype.
//
// Range of samples: sums are modulo 2^32 and are divided by 2^g, where g, the gain bits, is the least with 2^g not
// below r^stages. From samples of -2^(31 - g) to 2^(31 - g) - 1 every sum is exact. Beyond, a steady sample x comes
// round as soon as x * r^stages leaves the range of an int32_t: with 3 stages and r = 64, g is 18, a steady 8191 gives
// a level of 0.25 less a 32768th, 8192 gives -0.25 and 16384 gives 0. Where g is over 16, no sample of the exact range
// reaches full scale.
//
// Depth and passband: a cascade of depth d runs the first d half-band stages of M = 3, 4, 5, 10, 23 taps, as the Rust
// original does. The long last stage is what makes the passband wide, so only depth 5 holds 140 dB up to 0.4 of the
// output rate. Computed from the taps:
//
//   depth                                               1       2       3       4       5
//   worst alias into 0 to 0.4 of the output rate, dB  -12.9   -15.0   -16.6   -28.0  -143.0
//   aliases below -140 dB up to, of the output rate    0.037   0.074   0.130   0.260   0.400
//   level at 0.4 of the output rate, dB                -2.2    -1.9    -1.5    -0.4     0.0
typedef struct {
    // CIC stages, 1 to GAUGE_MOST_STAGES. With r they set the range of samples, see above.
    uint64_t stages;
    // CIC factor, 1 to GAUGE_MOST_FACTOR. r^stages is at most 2^GAUGE_MOST_GAIN_BITS.
    uint64_t r;
    // FIR factor, 1 to GAUGE_MOST_FACTOR. Not looked at without FIR taps.
    uint64_t factor;
    // Half-band stages, 0 (off) to GAUGE_MOST_DEPTH; each halves the rate.
    uint64_t depth;
    // Phases of the resampler, 0 (off) or GAUGE_LEAST_PHASES to GAUGE_MOST_PHASES. What follows is not looked at when
    // it is off.
    uint64_t phases;
    // Taps of each phase, 1 to GAUGE_MOST_PHASE_TAPS.
    uint64_t phase_taps;
    // Input samples for each output of the resampler, GAUGE_LEAST_STEP to GAUGE_MOST_STEP.
    float step;
    // How the resampler reads its prototype: 0 in wrapped phase, as the Rust original, any other number in straight
    // phase. gauge_resampler.h says what each is good for.
    uint64_t straight;
    // What thins by r: 0 the integrators and combs of the CIC decimator, any other number sums of neighbours, for which
    // r is a power of two. Both give the same levels; docs/line.md says what each is good for.
    uint64_t thinning;
} GaugeSettings;

// A line: its CIC decimator, its FIR, its half-band stages, its resampler, and how many values were cut to 16 bits;
// then what thins, and its neighbours, where those do. sample_counter is the place of either kind. A program reads a
// member if it likes and writes none.
//
// This is its layout 3: layout 2 had no neighbours, and layout 1 room for 64 FIR taps. The functions that open a line
// end in that number, so an object file that was compiled with another layout's header does not link.
// printed: state line
typedef struct {
    uint64_t stages;
    uint64_t r;
    int32_t integrators[GAUGE_MOST_STAGES];
    int32_t combs[GAUGE_MOST_STAGES];
    uint64_t sample_counter;
    int16_t taps[GAUGE_MOST_TAPS];
    uint64_t tap_count;
    uint64_t factor;
    int16_t fir_delay[GAUGE_MOST_TAPS];
    uint64_t wait;
    uint64_t depth;
    float delays[GAUGE_HBF_DEC_DELAYS];
    float held[GAUGE_MOST_DEPTH];
    uint64_t counts[GAUGE_MOST_DEPTH];
    uint64_t phases;
    uint64_t phase_taps;
    uint64_t straight;
    float mu;
    float step;
    float delay[GAUGE_MOST_PHASE_TAPS];
    float prototype[GAUGE_MOST_PROTOTYPE];
    uint32_t cuts;
    uint64_t thinning;
    int32_t neighbours[GAUGE_MOST_NEIGHBOURS];
} GaugeLine;

#define GAUGE_LINE_FIELDS(s)                                                                                           \
    &(s)->stages, &(s)->r, (s)->integrators, (s)->combs, &(s)->sample_counter, (s)->taps, &(s)->tap_count,             \
        &(s)->factor, (s)->fir_delay, &(s)->wait, &(s)->depth, (s)->delays, (s)->held, (s)->counts, &(s)->phases,      \
        &(s)->phase_taps, &(s)->straight, &(s)->mu, &(s)->step, (s)->delay, (s)->prototype, &(s)->cuts,                \
        &(s)->thinning, (s)->neighbours
// printed until here

// Opens a line. `taps` are the FIR's, in Q15 (32768ths), at most GAUGE_MOST_TAPS; none turn the FIR off. `prototype` is
// the resampler's, phases times phase_taps long, tap t of phase p at t * phases + p: gauge_resampler.h says how a
// filter design is laid into it. Both are copied. A part that is off hands its values on and is all zeros in the line.
// Refusals: 1, 2, 23 of neighbours only, 3, 5, 6, 11, 12, 13, 14, in this order; the line is then all zeros.
static inline uint64_t GaugeLine_open(
    GaugeLine *line, const GaugeSettings *settings, const int16_t *taps, uint64_t taps_len, const float *prototype,
    uint64_t prototype_len
) {
    return gauge_raw_line_open_3(
        settings->stages, settings->r, settings->factor, settings->depth, settings->phases, settings->phase_taps,
        settings->straight, settings->step, settings->thinning, taps, taps_len, prototype, prototype_len,
        GAUGE_LINE_FIELDS(line)
    );
}

// Tries a feeding plan before a line is opened: what each of `calls` feeds of a freshly opened line would take and
// write, one after the other. Call i is lent pieces[i] samples and a span of spans[i] places; taken[i] and written[i]
// get its counts. They are those of GaugeLine_feed for every choice of samples: counts depend on settings and lengths
// alone. What a call leaves untaken is not carried over: the next is lent exactly its own piece. Nothing is opened, and
// there may be no calls.
// Refusals: those of GaugeLine_open, then 22 where `calls` is over GAUGE_MOST_CALLS or a length over
// GAUGE_MOST_BLOCK. Both lists of counts then stay as they were.
static inline uint64_t gauge_plan(
    const GaugeSettings *settings, const int16_t *taps, uint64_t taps_len, const float *prototype,
    uint64_t prototype_len, const uint64_t *pieces, const uint64_t *spans, uint64_t *taken, uint64_t *written,
    uint64_t calls
) {
    return gauge_raw_plan_3(
        settings->stages, settings->r, settings->factor, settings->depth, settings->phases, settings->phase_taps,
        settings->straight, settings->step, settings->thinning, taps, taps_len, prototype, prototype_len, pieces, calls,
        spans, calls, taken, calls, written, calls
    );
}

// Takes samples from the front of those lent and writes levels to the front of `out`, until out is full, or no level is
// due and no sample is left. Places of out behind the levels stay as they were. Both may be of any length.
//
// Over every list of feeds of an opened line: no feed is refused; the levels written so far are the first ones of those
// that all samples taken so far give when each part is run over them as one list, however they were cut into feeds;
// where a place of out stayed unwritten, they are all of them and every sample lent was taken; and after a feed that
// filled out and took a sample, the samples taken so far without the last one give fewer levels than were written: no
// sample is taken before it is needed. GaugeLine_cuts then says how many values those samples make that are cut to 16
// bits.
// Refusals: 15.
static inline uint64_t GaugeLine_feed(
    GaugeLine *line, const int32_t *samples, uint64_t samples_len, float *out, uint64_t out_len, uint64_t *taken,
    uint64_t *written
) {
    return gauge_raw_line_feed(GAUGE_LINE_FIELDS(line), samples, samples_len, out, out_len, taken, written);
}

// One step of a feed. With `places` 0 it stops. Else a level that is due is written; else the sample at `at` is taken
// and a level may result; with no sample there it stops. `taken` and `written` are 0 or 1, both 0 where it stopped;
// `value` is the level, 0 where there is none.
// Refusals: 15.
static inline uint64_t GaugeLine_step(
    GaugeLine *line, const int32_t *samples, uint64_t samples_len, uint64_t at, uint64_t places, uint64_t *taken,
    uint64_t *written, float *value
) {
    return gauge_raw_line_step(GAUGE_LINE_FIELDS(line), samples, samples_len, at, places, taken, written, value);
}

// Makes the line what its opening made it.
// Refusals: 15; the line then stays as it was.
static inline uint64_t GaugeLine_reset(GaugeLine *line) {
    return gauge_raw_line_reset(GAUGE_LINE_FIELDS(line));
}

// How many values were cut to 16 bits since the opening or the last reset: scaled sums and, where the FIR is on, its
// sums, of all samples taken so far. A sum of -32768 or 32767 is not cut. It holds at 2^32 - 1. Refused calls leave it.
// The count runs ahead of the levels: filters hold a cut value back, so the level that shows it may come later.
static inline uint32_t GaugeLine_cuts(const GaugeLine *line) {
    return line->cuts;
}

// No line needs more bytes when it is parked: a directory of eight entries, the settings, the FIR's taps and its delay,
// five half-band stages, the prototype, the resampler, and a place with 30 neighbours, as of 3 stages and 10 halvings:
// neighbours are as many as gain bits. With integrators and combs in place of these, and seven entries, it is shorter.
#define GAUGE_MOST_PARKED                                                                                              \
    (66 + 24 + 2 * GAUGE_MOST_TAPS + (2 + 2 * GAUGE_MOST_TAPS) + 750 + 4 * GAUGE_MOST_PROTOTYPE +                      \
     (4 + 4 * GAUGE_MOST_PHASE_TAPS) + (2 + 4 * 30))

// The members of a line that is only read.
#define GAUGE_LINE_VALUES(s)                                                                                           \
    (s)->stages, (s)->r, (s)->integrators, (s)->combs, (s)->sample_counter, (s)->taps, (s)->tap_count, (s)->factor,    \
        (s)->fir_delay, (s)->wait, (s)->depth, (s)->delays, (s)->held, (s)->counts, (s)->phases, (s)->phase_taps,      \
        (s)->straight, (s)->mu, (s)->step, (s)->delay, (s)->prototype, (s)->cuts, (s)->thinning, (s)->neighbours

// How many bytes GaugeLine_park writes. It depends on the settings alone.
// Refusals: 15; `bytes` is then 0.
static inline uint64_t GaugeLine_parked_len(const GaugeLine *line, uint64_t *bytes) {
    return gauge_raw_line_parked_len(GAUGE_LINE_VALUES(line), bytes);
}

// Writes the line as a tap sheet to the front of the span: its settings, its taps, its prototype and all that a later
// feed depends on. `written` is the number of bytes; the places behind them stay as they were. docs/parking.md says
// what each byte is.
//
// The line that GaugeLine_take_up makes of the sheet gives, feed after feed, the answers, levels and cut counts of a
// line that was never parked.
// Refusals: 15; 17 where the span is too short. The span is then as it was, and `written` is 0.
static inline uint64_t GaugeLine_park(const GaugeLine *line, uint8_t *span, uint64_t span_len, uint64_t *written) {
    return gauge_raw_line_park(GAUGE_LINE_VALUES(line), span, span_len, written);
}

// Makes a line of a parked sheet.
// Refusals: 16 and 17 where the bytes are no tap sheet; 21 where it has other than seven or eight entries, or one of
// another length than its settings make it; 15 where a line with such fields is refused, or parking writes no such
// fields. The line is then all zeros.
static inline uint64_t GaugeLine_take_up(GaugeLine *line, const uint8_t *sheet, uint64_t sheet_len) {
    return gauge_raw_line_take_up_3(sheet, sheet_len, GAUGE_LINE_FIELDS(line));
}

#undef GAUGE_LINE_VALUES
#undef GAUGE_LINE_FIELDS

// Samples that lie one behind another in a buffer of the caller's.
typedef struct {
    const int32_t *samples;
    uint64_t len;
} GaugePiece;

// What to feed next: the rest of `last` behind the samples taken, or `waiting` where nothing of it is left.
static inline GaugePiece gauge_next_piece(GaugePiece last, uint64_t taken, GaugePiece waiting) {
    if (taken >= last.len) {
        return waiting;
    }
    last.samples += taken;
    last.len -= taken;
    return last;
}

#ifdef __cplusplus
}
#endif

#endif
