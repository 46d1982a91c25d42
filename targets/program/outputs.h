// The parts of the test program: each calls every function of one header and prints answers, outputs, places that
// were not written, and states.
#ifndef OUTPUTS_H
#define OUTPUTS_H

void cic_outputs(void);
void q15_outputs(void);
void half_band_outputs(void);
void linear_phase_outputs(void);
void resampler_outputs(void);
void sheet_outputs(void);
void line_outputs(void);

// All of them.
void outputs(void);

#endif
