#include "outputs.h"

void outputs(void) {
    cic_outputs();
    q15_outputs();
    half_band_outputs();
    linear_phase_outputs();
    resampler_outputs();
    sheet_outputs();
    line_outputs();
}
