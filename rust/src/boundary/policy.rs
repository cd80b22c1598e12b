//! The check of a policy.

call!(policy_check = burgee_policy_check(bytes policy));
