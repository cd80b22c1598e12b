//! The RPC verdict.

use crate::rpc::RpcRequest;

call!(rpc_verdict = burgee_rpc_verdict(bytes policy, rpc_request request));
