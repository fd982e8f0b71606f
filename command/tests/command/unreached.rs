//! Where the proved calls go over a pipe and the program `calls` can't be asked,
//! that is told, and nothing is refused.
#![cfg(not(all(target_arch = "x86_64", not(feature = "piped"))))]

use crate::run::{ended, leverbonnet};

/// Not named, not there, and ending without an answer.
const UNREACHED: [Option<&str>; 3] = [None, Some("/missing/calls"), Some("true")];

const SENTENCE: &str = "the proved calls can not be reached: ";

#[test]
fn a_job_is_not_refused() {
    for calls in UNREACHED {
        let mut command = leverbonnet(&["sheet", "examples/worked.job"]);
        command.env_remove("LEVERBONNET_CALLS");
        command.envs(calls.map(|calls| ("LEVERBONNET_CALLS", calls)));
        let ended = ended(&mut command);
        ended.assert_one_sentence(1, &format!("examples/worked.job: {SENTENCE}"));
    }
}

#[test]
fn a_layout_is_not_refused() {
    for calls in UNREACHED {
        let mut command = leverbonnet(&["layout", "round", "6", "240", "250"]);
        command.env_remove("LEVERBONNET_CALLS");
        command.envs(calls.map(|calls| ("LEVERBONNET_CALLS", calls)));
        let ended = ended(&mut command);
        assert_eq!((ended.out.as_str(), ended.status), ("", 1), "{ended:?}");
        assert!(ended.told.contains(SENTENCE), "{ended:?}");
    }
}
