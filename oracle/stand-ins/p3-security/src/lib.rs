//! Stand-in for `p3-security`: the three soundness kinds.
//!
//! How numbers are chosen from a security level is not built. The crate's derivation is called
//! once, with numbers of no meaning, only to obtain a record whose every field is then replaced;
//! the functions below let that one call through.

pub use whir::SecurityAssumption;

pub mod whir {
    use core::fmt;

    /// What is assumed of the code. The numbers are those that the separator binds.
    #[derive(Clone, Copy, Debug, PartialEq, Eq)]
    pub enum SecurityAssumption {
        UniqueDecoding = 0,
        JohnsonBound = 1,
        CapacityBound = 2,
    }

    impl fmt::Display for SecurityAssumption {
        fn fmt(&self, f: &mut fmt::Formatter<'_>) -> fmt::Result {
            fmt::Debug::fmt(self, f)
        }
    }

    /// Placeholders of the derivation, which is not built.
    impl SecurityAssumption {
        pub fn determine_ood_samples(
            self,
            _level: usize,
            _num_variables: usize,
            _log_inv_rate: usize,
            _field_bits: usize,
        ) -> Option<usize> {
            Some(0)
        }

        pub fn folding_pow_bits(
            self,
            _level: usize,
            _field_bits: usize,
            _num_variables: usize,
            _log_inv_rate: usize,
        ) -> f64 {
            0.0
        }

        pub fn queries(self, _level: usize, _log_inv_rate: usize) -> usize {
            1
        }

        pub fn queries_error(self, _log_inv_rate: usize, _num_queries: usize) -> f64 {
            0.0
        }

        pub fn queries_combination_error(
            self,
            _field_bits: usize,
            _num_variables: usize,
            _log_inv_rate: usize,
            _ood_samples: usize,
            _num_queries: usize,
        ) -> f64 {
            0.0
        }

        pub fn initial_claims_error(
            self,
            _field_bits: usize,
            _num_variables: usize,
            _log_inv_rate: usize,
            _num_claims: usize,
        ) -> f64 {
            0.0
        }
    }
}
