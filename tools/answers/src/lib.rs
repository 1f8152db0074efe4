//! The reference, built unchanged from its four files, with its functions made public under their own names,
//! and what the programs of `src/bin` share: a fixed stream of draws, recordings in pieces, the cases of the differential run and the two files that each writes.
//!
//! A module below includes one file and adds public functions, which reach what is private to that file.
#![allow(dead_code, unused_imports, unexpected_cfgs)]

mod brackets;
mod draws;
mod feeding;
pub mod order;
mod pipe;
mod rules;
pub mod run;
mod sheet;
mod stores;

pub use brackets::{Bracket, Brackets};
pub use draws::Draws;
pub use feeding::{
    alone, capacity, capacity_bytes, cut, dealt, earlier_bytes, feeds, laid, recording, valid, words_after, write_recording, Begin, Earlier, Feed, Plain,
    CHUNK_ENDS, SHORT_CHUNK_ENDS,
};
pub use order::{high_first, reversed};
pub use rules::Rules;
pub use sheet::Sheet;
pub use stores::{checksum, stored_place, stored_sets};

pub use autotest::public::configurations;
pub use bottomup::public::{
    better, bottomup, brute_force, brute_force_threads, choose, compute_index, first_zero_bit, from_bins, from_json,
    keys, low_first, multi_eval_neg, negate, to_json, to_json_in_report, to_json_pretty, validate, Histogram,
};
pub use common::public::{
    arguments, bit_value_in_block, bits_block_eval, multi_eval, transform_data, whole_blocks, z_score,
};
pub use results::public::evaluate_histogram;

/// A text of the reference with the member behind its own that it does not know.
pub fn with_low_first(text: &str, low_first: bool) -> String {
    format!("{},\"low_first\":{low_first}}}", text.strip_suffix('}').unwrap())
}

/// `Data` of the reference: a row of 128-wide words for each bit of a block.
pub struct Rows(common::Data);

impl Rows {
    pub fn row(&self, bit: usize) -> &[u128] {
        &self.0.data[bit]
    }

    pub fn num_of_blocks(&self) -> usize {
        self.0.num_of_blocks
    }

    /// Word `i` of a row, 64 wide: the low half of a 128-wide word comes first.
    pub fn word(&self, bit: usize, i: usize) -> u64 {
        (self.0.data[bit][i / 2] >> (64 * (i % 2))) as u64
    }
}

/// `Histogram` of the reference.
#[derive(Clone, Debug, PartialEq)]
pub struct Finding {
    pub block_size: usize,
    pub bits: Vec<usize>,
    pub order: Vec<usize>,
    pub division: usize,
    pub z: f64,
}

impl Finding {
    fn of(hist: bottomup::Histogram) -> Finding {
        Finding {
            block_size: hist.block_size,
            bits: hist.bits,
            order: hist.sorted_indices,
            division: hist.best_division,
            z: hist.z_score,
        }
    }

    fn histogram(&self) -> bottomup::Histogram {
        bottomup::Histogram {
            bits: self.bits.clone(),
            sorted_indices: self.order.clone(),
            best_division: self.division,
            z_score: self.z,
            block_size: self.block_size,
        }
    }
}

/// `Evaluation` of the reference, without its p-value.
pub struct Evaluated {
    pub positive: usize,
    pub bins: Vec<usize>,
    pub z: f64,
}

mod autotest {
    include!(concat!(env!("OUT_DIR"), "/autotest.rs"));

    pub mod public {
        pub fn configurations(block_size: usize, data_size: usize) -> Vec<(usize, usize)> {
            super::configurations(block_size, data_size)
        }
    }
}

mod bottomup {
    include!(concat!(env!("OUT_DIR"), "/bottomup.rs"));

    pub mod public {
        use crate::{Finding, Rows};

        pub fn from_bins(bits: &[usize], bins: &[usize], block_size: usize) -> Finding {
            Finding::of(super::Histogram::from_bins(bits.to_vec(), bins, block_size))
        }

        /// The refusal's words, where it refuses.
        pub fn validate(finding: &Finding) -> Result<(), String> {
            finding.histogram().validate().map_err(|e| e.to_string())
        }

        /// As the reference's `Histogram` writes itself by serde, without white space.
        pub fn to_json(finding: &Finding) -> String {
            serde_json::to_string(&finding.histogram()).unwrap()
        }

        /// The same over several lines.
        pub fn to_json_pretty(finding: &Finding) -> String {
            serde_json::to_string_pretty(&finding.histogram()).unwrap()
        }

        /// The object as it stands in the reference's report, under the key dis: indented, its keys as the report has them.
        pub fn to_json_in_report(finding: &Finding) -> String {
            let report = serde_json::to_string_pretty(&serde_json::json!({ "dis": finding.histogram() })).unwrap();
            report.strip_prefix("{\n  \"dis\": ").unwrap().strip_suffix("\n}").unwrap().to_string()
        }

        /// As the reference's `Histogram` reads itself by serde, not checked; or serde's words.
        pub fn from_json(text: &[u8]) -> Result<Finding, String> {
            serde_json::from_slice(text).map(Finding::of).map_err(|e| e.to_string())
        }

        /// The keys of an object, escapes resolved; nothing where the text is none.
        pub fn keys(text: &[u8]) -> Option<Vec<String>> {
            let members: std::collections::BTreeMap<String, serde::de::IgnoredAny> = serde_json::from_slice(text).ok()?;
            Some(members.into_keys().collect())
        }

        /// The value of the key low_first by serde, false where there is none; serde's words where it is neither true nor false, or stands there twice.
        pub fn low_first(text: &[u8]) -> Result<bool, String> {
            #[derive(serde::Deserialize)]
            struct Low {
                #[serde(default)]
                low_first: bool,
            }
            serde_json::from_slice(text).map(|low: Low| low.low_first).map_err(|e| e.to_string())
        }

        /// A `Histogram` to be written and read many times.
        pub struct Histogram(super::Histogram);

        impl Histogram {
            pub fn of(finding: &Finding) -> Histogram {
                Histogram(finding.histogram())
            }

            pub fn write_to(&self, out: &mut Vec<u8>) {
                serde_json::to_writer(out, &self.0).unwrap();
            }

            pub fn write(&self) -> Vec<u8> {
                serde_json::to_vec(&self.0).unwrap()
            }

            pub fn from_slice(text: &[u8]) -> Histogram {
                Histogram(serde_json::from_slice(text).unwrap())
            }

            pub fn from_str(text: &str) -> Histogram {
                Histogram(serde_json::from_str(text).unwrap())
            }

            pub fn validate(&self) {
                self.0.validate().unwrap();
            }

            pub fn finding(self) -> Finding {
                Finding::of(self.0)
            }
        }

        pub fn better(a: &Finding, b: &Finding) -> bool {
            super::better(&a.histogram(), &b.histogram())
        }

        pub fn first_zero_bit(k: usize) -> usize {
            super::first_zero_bit(k)
        }

        pub fn choose(n: usize, r: usize) -> usize {
            super::choose(n, r)
        }

        pub fn compute_index(bits: &[usize], block_size: usize) -> usize {
            super::compute_index(bits, block_size)
        }

        pub fn multi_eval_neg(bits: &[usize], rows: &Rows, negated: &Rows, bin: usize) -> usize {
            super::multi_eval_neg(bits, &rows.0, &negated.0, bin)
        }

        pub fn negate(rows: &Rows) -> Rows {
            Rows(super::negate(&rows.0))
        }

        pub fn brute_force(rows: &Rows, block_size: usize, k: usize) -> Option<Finding> {
            crate::common::set_quiet(true);
            super::brute_force(&rows.0, block_size, k).map(Finding::of)
        }

        pub fn brute_force_threads(rows: &Rows, block_size: usize, k: usize, threads: usize) -> Option<Finding> {
            crate::common::set_quiet(true);
            super::brute_force_threads(&rows.0, block_size, k, threads).map(Finding::of)
        }

        /// The layered search for 0 threads, the direct one for 1.
        pub fn bottomup(data: &[u8], block_size: usize, k: usize, threads: usize) -> Result<Finding, String> {
            crate::common::set_quiet(true);
            super::bottomup(data, block_size, k, threads).map(Finding::of).map_err(|e| e.to_string())
        }
    }
}

mod common {
    include!(concat!(env!("OUT_DIR"), "/common.rs"));

    pub mod public {
        use crate::Rows;
        use clap::Parser;

        /// The block size and the width that the argument reader takes from these options, or its refusal's words.
        pub fn arguments(options: &[&str]) -> Result<(usize, usize), String> {
            let words = ["cooltest", "recording"].iter().chain(options);
            let args = super::Args::try_parse_from(words).map_err(|e| e.to_string())?;
            super::validate_args(&args).map_err(|e| e.to_string())?;
            Ok((args.block, args.k))
        }

        pub fn bits_block_eval(bits: &[usize], block: &[u8]) -> usize {
            super::bits_block_eval(bits, block)
        }

        pub fn bit_value_in_block(bit: usize, block: &[u8]) -> bool {
            super::bit_value_in_block(bit, block)
        }

        pub fn transform_data(data: &[u8], block_size: usize) -> Rows {
            super::set_quiet(true);
            Rows(super::transform_data(data, block_size))
        }

        pub fn multi_eval(bits: &[usize], rows: &Rows) -> usize {
            super::multi_eval(bits, &rows.0)
        }

        pub fn z_score(sample_size: usize, positive: usize, p: f64) -> f64 {
            super::z_score(sample_size, positive, p)
        }

        pub fn whole_blocks(raw: &[u8], block_size: usize, training: bool) -> Result<(&[u8], &[u8]), String> {
            super::set_quiet(true);
            super::whole_blocks(raw, block_size, training).map_err(|e| e.to_string())
        }
    }
}

mod results {
    include!(concat!(env!("OUT_DIR"), "/results.rs"));

    pub mod public {
        use crate::{Evaluated, Finding};

        pub fn evaluate_histogram(finding: &Finding, testing_data: &[u8]) -> Evaluated {
            let evaluation = super::evaluate_histogram(&finding.histogram(), testing_data);
            Evaluated { positive: evaluation.count, bins: evaluation.bins, z: evaluation.z_score }
        }
    }
}
