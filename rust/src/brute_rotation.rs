//! The rotation once more, as a machine that has only texts: for tests, and with
//! nothing in common with `rotation` but the paper.

use crate::frame::Action;
use crate::generate::rotation::Call;
use crate::policy::check_policy;
use crate::refusal::Refusal;
use crate::rpc::{rpc_verdict, RpcVerdict};
use crate::table::check_table;
use crate::vectors::{POLICY_OF_NOBODY, VERSION_ONLY};
use crate::verdict::{path_verdict, tree_verdict};
use crate::word;

#[derive(Clone, PartialEq, Eq, Debug)]
pub struct Machine {
    pub is_policy: bool,
    pub live: Option<Vec<u8>>,
    pub candidate: Option<Vec<u8>>,
    pub is_on: bool,
}

impl Machine {
    pub fn factory(is_policy: bool) -> Machine {
        Machine { is_policy, live: None, candidate: None, is_on: false }
    }

    /// Makes the step of a call, and gives its answer word.
    pub fn step(&mut self, call: &Call) -> u64 {
        match call {
            Call::Start if self.is_on => 12,
            Call::Upload(_) | Call::Finalize | Call::Close if !self.is_on => 13,
            Call::Finalize if self.candidate.is_none() => 14,
            Call::ProbePath(_) | Call::ProbeTree(_) if self.is_policy => 16,
            Call::ProbeRpc(_) if !self.is_policy => 16,
            Call::Start => {
                self.is_on = true;
                0
            }
            Call::Upload(text) => {
                let answer = word::checked(if self.is_policy { check_policy(text) } else { check_table(text) });
                if answer == 0 {
                    self.candidate = Some(text.clone());
                }
                answer
            }
            Call::Finalize => {
                self.live = self.candidate.take();
                self.is_on = false;
                0
            }
            Call::Close => {
                self.candidate = None;
                self.is_on = false;
                0
            }
            Call::ProbePath(ask) => word::path_verdict(path_verdict(self.table(), &ask.request())),
            Call::ProbeTree(ask) => word::tree_verdict(tree_verdict(self.table(), &ask.request())),
            Call::ProbeRpc(rpc) => match self.in_force() {
                Some(policy) => word::rpc_verdict(rpc_verdict(policy, &rpc.request())),
                None => permit_unless_refused(rpc_verdict(POLICY_OF_NOBODY.as_bytes(), &rpc.request())),
            },
        }
    }

    /// The table in force; factory denies all, as one without rules does.
    fn table(&self) -> &[u8] {
        self.in_force().unwrap_or(VERSION_ONLY.as_bytes())
    }

    fn in_force(&self) -> Option<&[u8]> {
        self.candidate.as_deref().or(self.live.as_deref())
    }
}

/// The factory's answer to a request that some policy judges.
fn permit_unless_refused(answer: Result<RpcVerdict, Refusal>) -> u64 {
    word::rpc_verdict(answer.map(|_| RpcVerdict { action: Action::Permit, rule: None }))
}
