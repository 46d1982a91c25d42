// Appended by build.sh to a copy of the unchanged resampling.rs: the states' fields are private there.
// A constructor from parts and a reader of parts for each state.

impl<const STAGES: usize> CicDecimator<STAGES> {
    pub fn from_parts(
        r: usize,
        integrator_state: [i32; STAGES],
        comb_state: [i32; STAGES],
        sample_counter: usize,
    ) -> Self {
        Self {
            r,
            integrator_state,
            comb_state,
            sample_counter,
        }
    }

    pub fn parts(&self) -> (usize, [i32; STAGES], [i32; STAGES], usize) {
        (
            self.r,
            self.integrator_state,
            self.comb_state,
            self.sample_counter,
        )
    }
}

impl<const STAGES: usize> CicInterpolator<STAGES> {
    pub fn from_parts(
        r: usize,
        comb_state: [i32; STAGES],
        integrator_state: [i32; STAGES],
    ) -> Self {
        Self {
            r,
            comb_state,
            integrator_state,
        }
    }

    pub fn parts(&self) -> (usize, [i32; STAGES], [i32; STAGES]) {
        (self.r, self.comb_state, self.integrator_state)
    }
}

impl<const M: usize> HbfDec<M> {
    pub fn from_parts(coeffs: [f32; M], state: [f32; 96]) -> Self {
        Self { coeffs, state }
    }

    pub fn parts(&self) -> ([f32; M], [f32; 96]) {
        (self.coeffs, self.state)
    }
}

impl<const M: usize> HbfInt<M> {
    pub fn from_parts(coeffs: [f32; M], state: [f32; 48]) -> Self {
        Self { coeffs, state }
    }

    pub fn parts(&self) -> ([f32; M], [f32; 48]) {
        (self.coeffs, self.state)
    }
}

impl<const STAGES: usize> HbfDecCascade<STAGES> {
    pub fn from_parts(states: [[f32; 96]; 5]) -> Self {
        let mut cascade = Self::new();
        cascade.stage0.state = states[0];
        cascade.stage1.state = states[1];
        cascade.stage2.state = states[2];
        cascade.stage3.state = states[3];
        cascade.stage4.state = states[4];
        cascade
    }

    pub fn parts(&self) -> [[f32; 96]; 5] {
        [
            self.stage0.state,
            self.stage1.state,
            self.stage2.state,
            self.stage3.state,
            self.stage4.state,
        ]
    }

    /// One pair through one stage.
    pub fn stage_pair(&mut self, stage: usize, pair: [f32; 2]) -> f32 {
        match stage {
            0 => self.stage0.process_pair(pair),
            1 => self.stage1.process_pair(pair),
            2 => self.stage2.process_pair(pair),
            3 => self.stage3.process_pair(pair),
            _ => self.stage4.process_pair(pair),
        }
    }
}

impl<const STAGES: usize> HbfIntCascade<STAGES> {
    pub fn from_parts(states: [[f32; 48]; 5]) -> Self {
        let mut cascade = Self::new();
        cascade.stage0.state = states[0];
        cascade.stage1.state = states[1];
        cascade.stage2.state = states[2];
        cascade.stage3.state = states[3];
        cascade.stage4.state = states[4];
        cascade
    }

    pub fn parts(&self) -> [[f32; 48]; 5] {
        [
            self.stage0.state,
            self.stage1.state,
            self.stage2.state,
            self.stage3.state,
            self.stage4.state,
        ]
    }
}

impl<const PHASES: usize, const TAPS: usize> PolyphaseResampF32<PHASES, TAPS> {
    /// Midway: the newest samples and where the next output lies.
    pub fn set_parts(&mut self, delay: &[f32], mu: f32) {
        self.delay.copy_from_slice(delay);
        self.mu = mu;
    }

    pub fn parts(&self) -> (&[[f32; TAPS]], &[f32], f32, f32) {
        (&self.h, &self.delay, self.mu, self.step)
    }
}
