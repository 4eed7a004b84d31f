//! Ours: a configuration from numbers that are given instead of derived.
//!
//! The crate makes a configuration from a security level alone, and its record has private
//! fields. Here one is derived from numbers of no meaning, and then every field that the crate
//! reads is replaced.

use p3_challenger::{FieldChallenger, GrindingChallenger};
use p3_field::{ExtensionField, Field};

use crate::parameters::{
    FoldingFactor, ProtocolParameters, RoundConfig, SecurityAssumption, TerminalBudget, WhirConfig,
};

/// The numbers of a configuration.
#[derive(Clone, Debug)]
pub struct Given {
    pub num_variables: usize,
    pub max_log_domain_size: usize,
    pub domain_id: Vec<u8>,
    pub stratified_queries: bool,
    pub params: ProtocolParameters,
    pub round_parameters: Vec<RoundConfig>,
    pub folding_schedule: Vec<usize>,
    pub commitment_ood_samples: usize,
    pub starting_folding_pow_bits: usize,
    pub terminal: TerminalBudget,
    pub final_sumcheck_rounds: usize,
    pub final_folding_pow_bits: usize,
}

/// The configuration with exactly these numbers.
pub fn configuration<EF, F, Challenger>(given: Given) -> WhirConfig<EF, F, Challenger>
where
    F: Field,
    EF: ExtensionField<F>,
    Challenger: FieldChallenger<F> + GrindingChallenger<Witness = F>,
{
    let any = ProtocolParameters {
        starting_log_inv_rate: 1,
        round_log_inv_rates: Vec::new(),
        folding_factor: FoldingFactor::Constant(1),
        soundness_type: SecurityAssumption::UniqueDecoding,
        security_level: 0,
        pow_bits: 1,
    };
    let mut config = WhirConfig::<EF, F, Challenger>::new_with_max_domain_log(1, any, 2)
        .expect("the numbers of no meaning are taken");
    config.num_variables = given.num_variables;
    config.max_log_domain_size = given.max_log_domain_size;
    config.domain_id = given.domain_id;
    config.stratified_queries = given.stratified_queries;
    config.params = given.params;
    config.round_parameters = given.round_parameters;
    config.folding_schedule = given.folding_schedule;
    config.commitment_ood_samples = given.commitment_ood_samples;
    config.starting_folding_pow_bits = given.starting_folding_pow_bits;
    config.terminal = given.terminal;
    config.final_sumcheck_rounds = given.final_sumcheck_rounds;
    config.final_folding_pow_bits = given.final_folding_pow_bits;
    config
}
