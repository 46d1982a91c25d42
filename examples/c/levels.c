// Feeds a buffer of cell samples through a gauge line in pieces and prints the levels that come out.
#include "gauge_line.h"
#include <stdio.h>

#define SAMPLES 1500
#define PIECE 200
#define SPAN 3

// Every fourth sum of three CIC stages; a FIR of four equal taps and every second output; two half-band stages; then
// two levels for every three, drawn between neighbours by a resampler of two phases.
static uint64_t open_line(GaugeLine *line) {
    const int16_t taps[4] = {8192, 8192, 8192, 8192};
    const float prototype[4] = {1.0f, 0.5f, 0.0f, 0.5f};
    GaugeSettings settings;
    settings.stages = 3;
    settings.r = 4;
    settings.factor = 2;
    settings.depth = 2;
    settings.phases = 2;
    settings.phase_taps = 2;
    settings.step = 1.5f;
    settings.straight = 0;
    settings.thinning = 0;
    return GaugeLine_open(line, &settings, taps, 4, prototype, 4);
}

// A level that rises, with a ripple on it.
static void fill(int32_t *samples) {
    for (int32_t i = 0; i < SAMPLES; i++) {
        samples[i] = 8 * i + (i % 5 - 2) * 300;
    }
}

// At most PIECE samples from `from` on.
static GaugePiece piece_at(const int32_t *samples, uint64_t from) {
    GaugePiece piece;
    piece.samples = samples + from;
    piece.len = SAMPLES - from < PIECE ? SAMPLES - from : PIECE;
    return piece;
}

static void print_feed(GaugePiece piece, uint64_t taken, const float *levels, uint64_t written) {
    printf("%3llu of %3llu:", (unsigned long long)taken, (unsigned long long)piece.len);
    for (uint64_t i = 0; i < written; i++) {
        printf(" %.6f", levels[i]);
    }
    printf("\n");
}

// The stream has ended when an empty piece was fed and left a place of the span unwritten.
static uint64_t feed_all(GaugeLine *line, const int32_t *samples) {
    float levels[SPAN];
    uint64_t taken, written, refused;
    uint64_t handed = PIECE;
    GaugePiece piece = piece_at(samples, 0);
    do {
        refused = GaugeLine_feed(line, piece.samples, piece.len, levels, SPAN, &taken, &written);
        print_feed(piece, taken, levels, written);
        if (piece.len == 0 && written < SPAN) {
            return refused;
        }
        GaugePiece waiting = piece_at(samples, handed);
        piece = gauge_next_piece(piece, taken, waiting);
        if (piece.samples == waiting.samples) {
            handed += waiting.len;
        }
    } while (refused == GAUGE_NOT_REFUSED);
    return refused;
}

int main(void) {
    static int32_t samples[SAMPLES];
    static GaugeLine line;
    fill(samples);
    uint64_t refused = open_line(&line);
    if (refused == GAUGE_NOT_REFUSED) {
        refused = feed_all(&line, samples);
    }
    if (refused != GAUGE_NOT_REFUSED) {
        fprintf(stderr, "refused: %llu, %s\n", (unsigned long long)refused, gauge_refusal_name(refused));
        return 1;
    }
    return 0;
}
