//! The RPC verdict: the proved call against the Rust one.

use burgee_rust::compare::rpc_verdict;
use burgee_rust::generate::damage::damage;
use burgee_rust::generate::policy::{good_policy, good_rpc, many_header_lines, policy_of_headers, policy_of_length};
use burgee_rust::generate::policy_fault::{put_json_fault, PART_FAULTS};
use burgee_rust::generate::short::for_each_short_string;
use burgee_rust::random::Random;
use burgee_rust::rpc::RpcRequest;
use burgee_rust::tally::Tally;
use burgee_rust::vectors::{EXAMPLE_POLICY, POLICY_OF_NOBODY, SERVICE_POLICY, SSH_POLICY, SSH_POLICY_WITH_DENIALS};
use burgee_rust::word;

fn asks(policy: &str, identity: &str, path: &str, headers: &str) -> u64 {
    let request = RpcRequest { identity: identity.as_bytes(), path: path.as_bytes(), headers: headers.as_bytes() };
    rpc_verdict(policy.as_bytes(), &request)
}

/// Answer words.
const DENIED: u64 = 0;

fn permit(rule: u64) -> u64 {
    1 << 8 | (rule + 1) << 16
}

fn deny(rule: u64) -> u64 {
    (rule + 1) << 16
}

#[test]
fn the_ssh_policies_of_000() {
    let user = |name: &str| format!("spiffe://company.com/sa/{name}");
    for rpc in ["MutateAccountCredentials", "MutateHostCredentials", "CancelMutation"] {
        let path = format!("/gnsi.ssh.Ssh/{rpc}");
        for name in ["alice", "bob"] {
            assert_eq!(asks(SSH_POLICY, &user(name), &path, ""), permit(0));
            assert_eq!(asks(SSH_POLICY_WITH_DENIALS, &user(name), &path, ""), permit(0));
        }
        for name in ["marge", "don"] {
            assert_eq!(asks(SSH_POLICY, &user(name), &path, ""), DENIED);
            let expected = if rpc == "CancelMutation" { DENIED } else { deny(0) };
            assert_eq!(asks(SSH_POLICY_WITH_DENIALS, &user(name), &path, ""), expected);
        }
        assert_eq!(asks(SSH_POLICY, "", &path, ""), DENIED);
    }
    assert_eq!(asks(SSH_POLICY, &user("alice"), "/gnsi.authz.Authz/Rotate", ""), DENIED);
}

#[test]
fn the_service_policy_of_000() {
    let asks = |user: &str, path: &str| asks(SERVICE_POLICY, &format!("spiffe://foo.com/sa/{user}"), path, "");
    for method in ["foo", "bar", "baz"] {
        let path = format!("/pkg.service/{method}");
        for admin in ["admin1", "admin2", "admin3"] {
            assert_eq!(asks(admin, &path), permit(0));
        }
        assert_eq!(asks("dev", &path), if method == "baz" { DENIED } else { permit(1) });
        assert_eq!(asks("admin4", &path), DENIED);
    }
    assert_eq!(asks("admin1", "/pkg.other/foo"), DENIED);
}

#[test]
fn the_example_policy_of_002() {
    let asks = |identity: &str, path: &str, headers: &str| asks(EXAMPLE_POLICY, identity, path, headers);
    for admin in ["spiffe://foo.com/sa/admin1", "spiffe://foo.com/sa/admin2"] {
        assert_eq!(asks(admin, "/pkg.service/any", ""), permit(0));
        assert_eq!(asks(admin, "/pkg.service/foo", ""), permit(0));
        assert_eq!(asks(admin, "/pkg.service/secret", ""), deny(0));
        assert_eq!(asks(admin, "/other.service/foo", ""), DENIED);
    }
    for method in ["foo", "bar"] {
        let path = format!("/pkg.service/{method}");
        assert_eq!(asks("dev", &path, "dev-path:/dev/path/x\n"), permit(1));
        assert_eq!(asks("", &path, "dev-path:/dev/path/\n"), permit(1));
        assert_eq!(asks("dev", &path, "dev-path:dev/path/\n"), DENIED);
        assert_eq!(asks("dev", &path, ""), DENIED);
    }
    assert_eq!(asks("dev", "/pkg.service/baz", "dev-path:/dev/path/x\n"), DENIED);
    assert_eq!(asks("", "/any/secret", "dev-path:/dev/path/x\n"), deny(0));
}

#[test]
fn an_empty_allow_list_permits_nobody() {
    assert_eq!(asks(POLICY_OF_NOBODY, "", "", ""), DENIED);
    assert_eq!(asks(POLICY_OF_NOBODY, "alice", "/p.S/m", "k:v\n"), DENIED);
}

/// "An empty or missing source, request or list inside them checks nothing."
#[test]
fn empty_and_missing_parts_check_nothing() {
    for inside in [
        "",
        r#","source":{}"#,
        r#","source":{"principals":[]}"#,
        r#","request":{}"#,
        r#","request":{"paths":[]}"#,
        r#","request":{"headers":[]}"#,
        r#","source":{"principals":[]},"request":{"paths":[],"headers":[]}"#,
    ] {
        let rule = format!(r#"{{"name":"r"{inside}}}"#);
        let allow = format!(r#"{{"name":"p","allow_rules":[{rule}]}}"#);
        let denied = format!(r#"{{"name":"p","deny_rules":[{rule}],"allow_rules":[{rule}]}}"#);
        for (identity, path, headers) in [("", "", ""), ("a", "/m", "k:v\n")] {
            assert_eq!(asks(&allow, identity, path, headers), permit(0), "{inside}");
            assert_eq!(asks(&denied, identity, path, headers), deny(0), "{inside}");
        }
    }
}

#[test]
fn example_l() {
    let policy = r#"{"name":"p","allow_rules":[{"name":"r","source":{"principals":["*abc"]}}]}"#;
    assert_eq!(asks(policy, "abc", "", ""), permit(0));
    assert_eq!(asks(policy, "xabc", "", ""), permit(0));
    assert_eq!(asks(policy, "abcx", "", ""), DENIED);
}

#[test]
fn good_policies_and_requests() {
    let mut random = Random::new(0x46);
    let (mut permitted, mut denied, mut by_default) = (0, 0, 0);
    for _ in 0..5_000 {
        let policy = good_policy(&mut random).text(&mut random);
        for _ in 0..8 {
            let rpc = good_rpc(&mut random);
            let request = rpc.request();
            match rpc_verdict(&policy, &request) {
                DENIED => by_default += 1,
                answer if answer >> 8 & 0xFF == 1 => permitted += 1,
                _ => denied += 1,
            }
        }
    }
    let counts = [permitted, denied, by_default];
    assert!(counts.iter().all(|count| *count >= 5_000), "permit, deny, default: {counts:?}");
}

/// Every short pattern against every short value, as a principal, a path and a header.
#[test]
fn every_short_pattern_and_value() {
    let mut strings = Vec::new();
    for_each_short_string(b"ab", 3, |string| strings.push(String::from_utf8_lossy(string).into_owned()));
    let mut matched = 0;
    for stem in &strings {
        for pattern in [stem.clone(), format!("{stem}*"), format!("*{stem}")] {
            let policy = format!(
                r#"{{"name":"p","deny_rules":[{{"name":"d","source":{{"principals":["{pattern}"]}}}}],"allow_rules":[
                {{"name":"r","request":{{"paths":["{pattern}"]}}}},
                {{"name":"s","request":{{"headers":[{{"key":"k","values":["{pattern}"]}}]}}}}]}}"#
            );
            for value in &strings {
                let answers = [
                    asks(&policy, value, "#", "k:#\n"),
                    asks(&policy, "#", value, "k:#\n"),
                    asks(&policy, "#", "#", &format!("k:{value}\n")),
                ];
                matched += usize::from(answers[0] == deny(0) && answers[1] == permit(0) && answers[2] == permit(1));
            }
        }
    }
    assert!(matched >= 80, "{matched} patterns matched in each role");
}

#[test]
fn headers_joined_repeated_absent_and_empty() {
    let policy = |patterns: &str| {
        format!(r#"{{"name":"p","allow_rules":[{{"name":"r","request":{{"headers":[{patterns}]}}}}]}}"#)
    };
    let one = |pattern: &str| policy(&format!(r#"{{"key":"k","values":["{pattern}"]}}"#));
    let lines = [
        "",
        "k:\n",
        "k:\nk:\n",
        "k:a\n",
        "k:a\nk:b\n",
        "k:a\nl:x\nk:b\n",
        "l:a\nk:b\nk:a\nkk:c\n",
        "k:a,b\n",
        "k: a\n",
        "kk:a\n",
    ];
    let joined = ["", "", ",", "a", "a,b", "a,b", "b,a", "a,b", " a", ""];
    for (lines, value) in lines.iter().zip(joined) {
        assert_eq!(asks(&one(value), "", "", lines), permit(0), "{value:?} is the value of {lines:?}");
        for pattern in ["", "*", "a", "a*", "*a", ",", "a,b", "b,*", " *", "*,"] {
            asks(&one(pattern), "", "", lines);
        }
        // The same key twice: both must match.
        asks(&policy(r#"{"key":"k","values":["a*"]},{"key":"k","values":["*b"]}"#), "", "", lines);
        asks(&policy(r#"{"key":"k","values":["x","a*"]},{"key":"l","values":["","x"]}"#), "", "", lines);
    }
    let many: String = (0..1_000).map(|n| format!("k:{}\n", n % 10)).collect();
    assert_eq!(asks(&one("0,1,2*"), "", "", &many), permit(0));
    assert_eq!(asks(&one("*,8,9"), "", "", &many), permit(0));
}

#[test]
fn faulty_requests() {
    let mut tally = Tally::default();
    let strings: Vec<Vec<u8>> = [0, 1, 255, 256, 257, 3_000].iter().map(|len| vec![b'a'; *len]).collect();
    let more = [&b"\x1f"[..], b" ~", b"a\x7f", b"\xff", b"\0a", b"a\n"].map(<[u8]>::to_vec);
    let headers: [&[u8]; 16] = [
        b"",
        b"k:v\n",
        b"k:\n",
        b"host:x\n",
        b"k::\n",
        b"k:v",
        b"k\n",
        b"\n",
        b":v\n",
        b"K:v\n",
        b"k :v\n",
        b"k:v\n\n",
        b"k:\t\n",
        b"k:v\r\n",
        b"k:\x7f\n",
        b"k:v\nl",
    ];
    for policy in [POLICY_OF_NOBODY, SSH_POLICY, "", "{}"] {
        for identity in strings.iter().chain(&more) {
            for path in strings.iter().chain(&more) {
                for headers in headers {
                    tally.count(rpc_verdict(policy.as_bytes(), &RpcRequest { identity, path, headers }));
                }
            }
        }
    }
    tally.assert_at_least(&[(0, 100), (31, 1_000), (33, 1_000), (40, 1_000), (41, 200)]);
    for (len, number) in [(8_191, 0), (8_192, 0), (8_193, 41), (20_000, 41)] {
        let one = format!("k:{}\n", "v".repeat(len - 3));
        let many = format!("{}x:{}\n", "k:v\n".repeat(2_000), "v".repeat(len - 3 - 8_000));
        assert_eq!(word::refusal_number(asks(POLICY_OF_NOBODY, "", "", &one)), number);
        assert_eq!(word::refusal_number(asks(POLICY_OF_NOBODY, "", "", &many)), number);
    }
}

/// Every byte at every place of some header lines.
#[test]
fn every_byte_in_the_headers() {
    let mut tally = Tally::default();
    let policy = br#"{"name":"p","allow_rules":[{"name":"r","request":{"headers":[{"key":"k","values":["v,w"]}]}}]}"#;
    let lines = b"k:v\nx-1:y\nk:w\n";
    for at in 0..=lines.len() {
        for byte in 0..=255u8 {
            let mut changed = lines.to_vec();
            match changed.get_mut(at) {
                Some(place) => *place = byte,
                None => changed.push(byte),
            }
            tally.count(rpc_verdict(policy, &RpcRequest { identity: b"", path: b"", headers: &changed }));
            let mut between = lines.to_vec();
            between.insert(at, byte);
            tally.count(rpc_verdict(policy, &RpcRequest { identity: b"", path: b"", headers: &between }));
        }
    }
    tally.assert_at_least(&[(0, 1_500), (41, 3_000)]);
}

/// The policy comes first, then 40, then 41.
#[test]
fn faults_of_policy_and_request_together() {
    let mut random = Random::new(0x47);
    let mut tally = Tally::default();
    for _ in 0..10_000 {
        let mut policy = good_policy(&mut random);
        if random.one_in(3) {
            random.pick(&PART_FAULTS).put(&mut random, &mut policy);
        }
        let mut text = policy.text(&mut random);
        if random.one_in(6) {
            put_json_fault(&mut random, &mut text);
        }
        let mut rpc = good_rpc(&mut random);
        if random.one_in(3) {
            damage(&mut random, &mut rpc.headers, b"k:\nK\t\x7f\0");
        }
        if random.one_in(4) {
            let string = if random.one_in(2) { &mut rpc.identity } else { &mut rpc.path };
            damage(&mut random, string, b"\0\n\x7f\x80\xff");
        }
        let request = rpc.request();
        tally.count(rpc_verdict(&text, &request));
    }
    tally.assert_at_least(&[
        (0, 2_000),
        (31, 800),
        (34, 100),
        (35, 500),
        (36, 100),
        (37, 200),
        (38, 200),
        (40, 500),
        (41, 500),
    ]);
}

#[test]
fn large_policies() {
    for policy in [policy_of_length(400), policy_of_length(4_096), policy_of_length(16_384), policy_of_headers()] {
        for (identity, path) in
            [("spiffe://company.com/sa/user-0-2", "/gnmi.gNMI/0/x"), ("nobody", "/x/Set1"), ("", "")]
        {
            for headers in [&b"k:v\n"[..], &many_header_lines()] {
                rpc_verdict(&policy, &RpcRequest { identity: identity.as_bytes(), path: path.as_bytes(), headers });
            }
        }
    }
}
