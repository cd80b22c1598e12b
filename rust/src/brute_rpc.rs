//! The RPC verdict once more, on the parts a policy was generated from: for tests
//! only, and with nothing in common with `rpc` but the paper.

use crate::generate::policy::{Policy, Rpc, Rule};

/// Whether the RPC is permitted, and by which rule of the list that this names.
pub fn verdict(policy: &Policy, rpc: &Rpc) -> (bool, Option<usize>) {
    let denials = policy.deny_rules.as_deref().unwrap_or_default();
    for (number, rule) in denials.iter().enumerate() {
        if matches(rule, rpc) {
            return (false, Some(number));
        }
    }
    for (number, rule) in policy.allow_rules.iter().enumerate() {
        if matches(rule, rpc) {
            return (true, Some(number));
        }
    }
    (false, None)
}

fn matches(rule: &Rule, rpc: &Rpc) -> bool {
    let mut checks = Vec::new();
    if let Some(principals) = rule.source.as_ref().and_then(|source| source.principals.as_ref()) {
        checks.push(principals.is_empty() || principals.iter().any(|pattern| is_like(pattern, &rpc.identity)));
    }
    if let Some(request) = &rule.request {
        if let Some(paths) = &request.paths {
            checks.push(paths.is_empty() || paths.iter().any(|pattern| is_like(pattern, &rpc.path)));
        }
        for header in request.headers.iter().flatten() {
            let value = header_value(&rpc.headers, &header.key);
            checks.push(header.values.iter().any(|pattern| is_like(pattern, &value)));
        }
    }
    !checks.contains(&false)
}

/// The values of all lines with this name, with commas between them.
fn header_value(lines: &[u8], name: &[u8]) -> Vec<u8> {
    let start = [name, b":"].concat();
    let values: Vec<&[u8]> = lines.split(|b| *b == b'\n').filter_map(|line| line.strip_prefix(&start[..])).collect();
    values.join(&b","[..])
}

/// `*` alone stands for anything but nothing, elsewhere for anything.
fn is_like(pattern: &[u8], value: &[u8]) -> bool {
    match pattern.iter().position(|b| *b == b'*') {
        None => pattern == value,
        Some(_) if pattern.len() == 1 => !value.is_empty(),
        Some(star) => {
            let (before, after) = (&pattern[..star], &pattern[star + 1..]);
            (0..=value.len()).any(|i| &value[..i] == before && (after.is_empty() || &value[i..] == after))
                || (0..=value.len()).any(|i| before.is_empty() && &value[i..] == after)
        }
    }
}

#[cfg(test)]
mod tests {
    use super::*;
    use crate::frame::Action;
    use crate::generate::policy::{good_policy, good_rpc};
    use crate::random::Random;
    use crate::rpc::rpc_verdict;

    #[test]
    fn both_verdicts_agree() {
        let mut random = Random::new(0x48);
        let mut counts = [0; 3];
        for _ in 0..4_000 {
            let policy = good_policy(&mut random);
            let text = policy.text(&mut random);
            for _ in 0..5 {
                let rpc = good_rpc(&mut random);
                let request = rpc.request();
                let fast = rpc_verdict(&text, &request).unwrap();
                let slow = verdict(&policy, &rpc);
                let permit = fast.action == Action::Permit;
                assert_eq!((permit, fast.rule.map(usize::from)), slow, "{rpc:?} of {policy:?}");
                counts[if permit { 0 } else { 1 + usize::from(slow.1.is_none()) }] += 1;
            }
        }
        assert!(counts.iter().all(|count| *count >= 2_000), "permit, deny, default: {counts:?}");
    }
}
