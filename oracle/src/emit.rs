// `oracle/build` puts this after the original's `emit`: a writer that the oracle can see.

pub struct OracleWriter(CbrWriter);

/// The targets alone, at a rate by code, n and d: patched as the check is (request 02) where n or d is not 0.
pub fn oracle_targets(bit_rate: u64, [code, n, d]: [u8; 3], between: u8, anchors: u8) -> [u64; 3] {
    let as_it_is = frame_rate_value(code).unwrap();
    let frame_rate = if (n, d) == (0, 0) { as_it_is } else { oracle_extended(as_it_is, n, d) };
    type_target_bits(bit_rate, frame_rate, between.into(), anchors.into())
}

impl OracleWriter {
    /// As `encode_cbr_gop_sequence` makes it, of parameters that creation accepts, with nothing put out yet.
    pub fn new(bit_rate: u64, buffer_bits: u64, rate_code: u8, q: u8, between: u8, anchors: u8) -> Self {
        Self::at_rate(bit_rate, buffer_bits, frame_rate_value(rate_code).unwrap(), q, between, anchors)
    }

    /// The same, patched as the check is (request 02): what was looked up is multiplied.
    pub fn extended(bit_rate: u64, buffer_bits: u64, rate: [u8; 3], q: u8, between: u8, anchors: u8) -> Self {
        let [code, n, d] = rate;
        let frame_rate = oracle_extended(frame_rate_value(code).unwrap(), n, d);
        Self::at_rate(bit_rate, buffer_bits, frame_rate, q, between, anchors)
    }

    fn at_rate(bit_rate: u64, buffer_bits: u64, frame_rate: (u32, u32), q: u8, between: u8, anchors: u8) -> Self {
        Self(CbrWriter {
            out: vec![],
            model: VbvCbrModel::new(&VbvParams::new(bit_rate, buffer_bits, frame_rate)).unwrap(),
            frd: frame_rate.1,
            target_bits: type_target_bits(bit_rate, frame_rate, between.into(), anchors.into()),
            q: [q; 3],
            quantisers: vec![],
            stuffing_bytes: 0,
            started: false,
            buffer_bits,
            bit_rate,
        })
    }

    pub fn copy(&self) -> Self {
        let w = &self.0;
        Self(CbrWriter { out: w.out.clone(), model: w.model.clone(), quantisers: w.quantisers.clone(), ..*w })
    }

    /// Whether `emit` accepts; `layer` gives the layer for a quantiser, none where there is no more.
    pub fn emit(
        &mut self,
        headers: &[u8],
        kind: usize,
        interval: RemovalInterval,
        last: bool,
        mut layer: impl FnMut(u8) -> Option<Vec<u8>>,
    ) -> bool {
        let kind = [PictureKind::I, PictureKind::P, PictureKind::B][kind];
        let encode = |q| layer(q).map(|l| (l, None)).ok_or(Error::InvalidBitstream("no more layers"));
        self.0.emit(headers, kind, interval, last, encode).is_ok()
    }

    /// The same of a picture that lasts so many field periods. It has an interval of one and one of two; for more it is given
    /// that of one field at so many times its frd.
    pub fn emit_lasting(
        &mut self,
        headers: &[u8],
        kind: usize,
        periods: u64,
        last: bool,
        layer: impl FnMut(u8) -> Option<Vec<u8>>,
    ) -> bool {
        let (interval, times) = match periods {
            2 => (RemovalInterval::Frame, 1),
            _ => (RemovalInterval::Field, periods as u32),
        };
        self.0.frd *= times;
        let accepted = self.emit(headers, kind, interval, last, layer);
        self.0.frd /= times;
        accepted
    }

    /// This writer with memory for what it puts out.
    pub fn with_room(self, mut out: Vec<u8>) -> Self {
        out.clear();
        Self(CbrWriter { out, ..self.0 })
    }

    pub fn into_out(self) -> Vec<u8> {
        self.0.out
    }

    pub fn out(&self) -> &[u8] {
        &self.0.out
    }

    pub fn targets(&self) -> [u64; 3] {
        self.0.target_bits
    }

    pub fn q(&self) -> [u8; 3] {
        self.0.q
    }

    pub fn quantisers(&self) -> &[u8] {
        &self.0.quantisers
    }

    pub fn stuffing_bytes(&self) -> u64 {
        self.0.stuffing_bytes
    }

    pub fn state(&self) -> [u64; 4] {
        self.0.model.oracle_state()
    }
}
