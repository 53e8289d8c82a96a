//! What the ten configuration bytes mean (paper 01, "Configuration").

use crate::refusal;

pub const LENGTH: usize = 10;

/// DCOMP where PKCFG bit 1 is set.
const FIXED_DCOMP: u8 = 0x6C;

/// The ten bytes in address order 0x76 to 0x7F: ILMD, SEDVF, SEDV1, ISLC, DMFSD, TAPER, PKCFG, ID3, DCOMP, TCOMP.
#[derive(Clone, Copy, Debug, PartialEq, Eq)]
pub struct Configuration {
    pub bytes: [u8; LENGTH],
}

impl Configuration {
    /// Refuses with 1, then 2.
    pub fn new(bytes: &[u8]) -> Result<Configuration, u32> {
        let bytes: [u8; LENGTH] = bytes.try_into().map_err(|_| refusal::CONFIGURATION_LENGTH)?;
        let configuration = Configuration { bytes };
        if configuration.ilmd() == 0 {
            return Err(refusal::ILMD_ZERO);
        }
        Ok(configuration)
    }

    pub fn ilmd(&self) -> i32 {
        i32::from(self.bytes[0])
    }

    /// In counts. It is LMD after opening.
    pub fn design_capacity(&self) -> i32 {
        256 * self.ilmd()
    }

    /// In mV.
    pub fn edvf(&self) -> i32 {
        8 * (i32::from(self.bytes[1]) + 256)
    }

    /// In mV, at least 32 above EDVF.
    pub fn e1(&self) -> i32 {
        let from_sedv1 = 8 * (i32::from(self.bytes[2]) + 256);
        from_sedv1.max(self.edvf() + 32)
    }

    /// Initial standby current, in units.
    pub fn s0(&self) -> i32 {
        2 * i32::from(self.bytes[3])
    }

    /// The current up to which a discharge is standby and above which it is heavy enough to teach: 2 × S0 (steps 4 and 5).
    pub fn standby_limit(&self) -> i32 {
        2 * self.s0()
    }

    /// A current of at most DMF units either way counts as 0.
    pub fn dmf(&self) -> i32 {
        i32::from(self.bytes[4] >> 4)
    }

    /// Leak in 0.1 % a day at 25 °C.
    pub fn sd(&self) -> i64 {
        i64::from(self.bytes[4] & 0x0F)
    }

    pub fn taper(&self) -> i32 {
        i32::from(self.bytes[5])
    }

    fn pkcfg(&self) -> u8 {
        self.bytes[6]
    }

    /// DCOMP as it is used. The register at 0x7E still shows the byte as it was given.
    fn dcomp(&self) -> u8 {
        if self.pkcfg() & 0x02 != 0 {
            FIXED_DCOMP
        } else {
            self.bytes[8]
        }
    }

    pub fn dcgn(&self) -> i64 {
        i64::from(self.dcomp() >> 3)
    }

    pub fn dcoff(&self) -> i64 {
        i64::from(self.dcomp() & 0x07)
    }

    pub fn tcgn(&self) -> i64 {
        i64::from(self.bytes[9] >> 3)
    }

    /// 4 × (273 + TOFF), in quarter kelvins: below it DCMP grows and no run qualifies.
    pub fn cold_limit(&self) -> i32 {
        4 * (273 + i32::from(self.bytes[9] & 0x07))
    }

    /// GAF, the two low bits of ID3: how fast the compensation ages (paper 02, A5).
    pub fn gaf(&self) -> i64 {
        i64::from(self.bytes[7] & 0x03)
    }

    /// MODE as opened: bit 7 from PKCFG bit 7, bits 6 and 2 (INIT) set.
    pub fn opened_mode(&self) -> u8 {
        (self.pkcfg() & 0x80) | 0x44
    }

    /// Counted current c: 0 if |a| ≤ DMF, else a.
    pub fn counted(&self, a: i32) -> i32 {
        if a.abs() <= self.dmf() {
            0
        } else {
            a
        }
    }
}
