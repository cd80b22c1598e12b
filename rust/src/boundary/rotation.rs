//! The calls on the rotation record. The store is lent for writing to every one of
//! them, so that a test sees a call that stores where it may not.

use crate::request::PathRequest;
use crate::rotation::Record;
use crate::rpc::RpcRequest;

call!(start = burgee_start(record record, buffer store));
call!(upload = burgee_upload(record record, buffer store, bytes text));
call!(finalize = burgee_finalize(record record, buffer store));
call!(close = burgee_close(record record, buffer store));
call!(probe_path = burgee_probe_path(numbers record, buffer store, path_request request));
call!(probe_tree = burgee_probe_tree(numbers record, buffer store, path_request request));
call!(probe_rpc = burgee_probe_rpc(numbers record, buffer store, rpc_request request));
