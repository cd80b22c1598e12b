//! The policy check and the RPC verdict: the speed of the two implementations. A
//! verdict reads the whole policy each time.

use std::hint::black_box;

use burgee_rust::boundary::policy as proved_policy;
use burgee_rust::boundary::rpc as proved_rpc;
use burgee_rust::generate::policy::{
    list_of_objects, many_header_lines, names_alike, nested_object, object_of_members, policy_of_headers,
    policy_of_length, policy_of_one_header, shortest_names, Names,
};
use burgee_rust::limits;
use burgee_rust::measure::Table;
use burgee_rust::policy::check_policy;
use burgee_rust::rpc::{rpc_verdict, RpcRequest};
use burgee_rust::vectors::{EXAMPLE_POLICY, SSH_POLICY};
use burgee_rust::word;

fn main() {
    let policies = [
        ("example of 000", SSH_POLICY.as_bytes().to_vec()),
        ("example of 002", EXAMPLE_POLICY.as_bytes().to_vec()),
        ("0.4 KB", policy_of_length(470)),
        ("4 KB", policy_of_length(4_096)),
        ("16 KB", policy_of_length(limits::POLICY_TEXT)),
    ];

    let printed = Table::new("Check of a policy");
    for (name, text) in &policies {
        check_row(&printed, name, text);
    }

    let printed = Table::new("Check of a text with many members, which is no policy");
    let members = |order| object_of_members(limits::POLICY_TEXT, order);
    check_row(&printed, "one object, names in byte order", &members(Names::Rising));
    check_row(&printed, "in reverse", &members(Names::Falling));
    check_row(&printed, "in any order", &members(Names::Shuffled));
    check_row(&printed, "the same, 16 levels deep", &nested_object(limits::POLICY_TEXT, 16));
    check_row(&printed, "objects of one member each", &list_of_objects(limits::POLICY_TEXT));
    check_row(&printed, "one object, names in any order", &object_of_members(2048, Names::Shuffled));
    check_row(&printed, "a short one", &object_of_members(300, Names::Shuffled));

    let headers = b"user-agent:client/1.0\ndev-path:/dev/path/x\naccept:a\naccept:b\n";
    let printed = Table::new("RPC verdict, by default");
    for (name, text) in &policies {
        verdict_row(&printed, &format!("{name}, {} bytes", text.len()), text, headers);
    }
    let (text, headers) = (policy_of_headers(), many_header_lines());
    verdict_row(&printed, &format!("384 headers, {} bytes, and 8 KB of header lines", text.len()), &text, &headers);
    let row = |what: &str, text: &[u8], headers: &[u8]| {
        verdict_row(&printed, &format!("one header 372 times, {} bytes, and {what}", text.len()), text, headers)
    };
    row("1,170 names that begin, end and are centred alike", &policy_of_one_header("x0-0x", ""), &names_alike());
    row("the most names that fit", &policy_of_one_header("k", ""), &shortest_names(0));
    row("the same, made for its bucket", &policy_of_one_header("k", ""), &shortest_names(FULLEST));
    row("2,730 lines of it", &policy_of_one_header("k", "*"), &b"k:\n".repeat(2_730));
    row("8 KB in one line of it", &policy_of_one_header("k", "*"), &[b"k:", &[b'v'; 8_189][..], b"\n"].concat());
}

/// The number with which most of the names share the header's bucket, of the first 3,000,000.
const FULLEST: usize = 269_512;

fn check_row(printed: &Table, name: &str, text: &[u8]) {
    printed.row(
        &format!("{name}, {} bytes", text.len()),
        || proved_policy::policy_check(black_box(text)),
        || word::checked(check_policy(black_box(text))),
    );
}

fn verdict_row(printed: &Table, name: &str, text: &[u8], headers: &[u8]) {
    let request = RpcRequest { identity: b"spiffe://company.com/sa/nobody", path: b"/gnmi.gNMI/Get", headers };
    printed.row(
        name,
        || proved_rpc::rpc_verdict(black_box(text), black_box(&request)),
        || word::rpc_verdict(rpc_verdict(black_box(text), black_box(&request))),
    );
}
