//! The path and the tree verdict.

use crate::request::PathRequest;

call!(path_verdict = burgee_path_verdict(bytes table, path_request request));
call!(tree_verdict = burgee_tree_verdict(bytes table, path_request request));
