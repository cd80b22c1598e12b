//! Tables, policies and a log that the papers show, as text.

/// A table with its 01 line only: "accepted and denies all".
pub const VERSION_ONLY: &str = "010276310000000000000001\n";

/// The table of the examples E to K, whole.
pub const EXAMPLES_E_TO_K: &str = "\
010276310000000000000001
020167
0301670175
04010101016701720001016101016b012a
";

/// The log line of 2026-01: `u` reads `/a/b`.
pub const SEASON_LOG: &str = "0101750002016100016200\n";

/// Examples A to D: stevie is in admin and in engineers; the rules are those that each
/// example names, in its order.
pub const EXAMPLE_A: &str = "\
010276310000000000000001
020561646d696e
0209656e67696e65657273
030561646d696e06737465766965
0309656e67696e6565727306737465766965
040101010561646d696e0261310004116e6574776f726b2d696e7374616e63657300106e6574776f726b2d696e7374616e636501046e616d650744454641554c540970726f746f636f6c73000870726f746f636f6c010a6964656e74696669657203424750
04000100067374657669650261320004116e6574776f726b2d696e7374616e63657300106e6574776f726b2d696e7374616e636501046e616d65012a0970726f746f636f6c73000870726f746f636f6c010a6964656e74696669657203424750
";

/// Example B.
pub const EXAMPLE_B: &str = "\
010276310000000000000001
020561646d696e
0209656e67696e65657273
030561646d696e06737465766965
0309656e67696e6565727306737465766965
04010100067374657669650262310004116e6574776f726b2d696e7374616e63657300106e6574776f726b2d696e7374616e636501046e616d650744454641554c540970726f746f636f6c73000870726f746f636f6c010a6964656e74696669657203424750
040001010561646d696e0262320004116e6574776f726b2d696e7374616e63657300106e6574776f726b2d696e7374616e636501046e616d650744454641554c540970726f746f636f6c73000870726f746f636f6c010a6964656e74696669657203424750
";

/// Example C.
pub const EXAMPLE_C: &str = "\
010276310000000000000001
020561646d696e
0209656e67696e65657273
030561646d696e06737465766965
0309656e67696e6565727306737465766965
04010100067374657669650263310004116e6574776f726b2d696e7374616e63657300106e6574776f726b2d696e7374616e636501046e616d650744454641554c540970726f746f636f6c73000870726f746f636f6c010a6964656e746966696572012a
04000100067374657669650263320004116e6574776f726b2d696e7374616e63657300106e6574776f726b2d696e7374616e636501046e616d65012a0970726f746f636f6c73000870726f746f636f6c010a6964656e74696669657203424750
";

/// Example D.
pub const EXAMPLE_D: &str = "\
010276310000000000000001
020561646d696e
0209656e67696e65657273
030561646d696e06737465766965
0309656e67696e6565727306737465766965
040101010561646d696e0264310004116e6574776f726b2d696e7374616e63657300106e6574776f726b2d696e7374616e636501046e616d650744454641554c540970726f746f636f6c73000870726f746f636f6c010a6964656e74696669657203424750
0400010109656e67696e656572730264320004116e6574776f726b2d696e7374616e63657300106e6574776f726b2d696e7374616e636501046e616d650744454641554c540970726f746f636f6c73000870726f746f636f6c010a6964656e74696669657203424750
";

/// The policy of example 5 of document 001. It writes its two denials for
/// "core-controller"; they stand here for the group core-controllers, as its results say.
pub const INTERFACES: &str = "\
010276310000000000000001
0210636f72652d636f6e74726f6c6c657273
0208636f72652d656e67
0310636f72652d636f6e74726f6c6c65727310636f72652d636f6e74726f6c6c657231
0308636f72652d656e6704656e6731
0401010110636f72652d636f6e74726f6c6c65727302723100020a696e74657266616365730009696e7465726661636501046e616d65012a
0401010108636f72652d656e6702723200020a696e74657266616365730009696e7465726661636501046e616d65012a
0401010014637573746f6d65722d636f6e74726f6c6c65723102723300040a696e74657266616365730009696e7465726661636501046e616d650865742d312f302f310573746174650008636f756e7465727300
0401010014637573746f6d65722d636f6e74726f6c6c65723202723400040a696e74657266616365730009696e7465726661636501046e616d650865742d312f302f320573746174650008636f756e7465727300
0400010110636f72652d636f6e74726f6c6c65727302723500020a696e74657266616365730009696e7465726661636501046e616d650865742d312f302f31
0400010110636f72652d636f6e74726f6c6c65727302723600020a696e74657266616365730009696e7465726661636501046e616d650865742d312f302f32
";

/// The example authorization of document 001, under "An Example Authorization Protobuf".
pub const MESSAGE_PATHS: &str = "\
0117555549442d313233342d3132333132332d31323331323300000000499602d2
020c66616d696c792d67726f7570
020a746573742d67726f7570
030c66616d696c792d67726f757006737465766965
030c66616d696c792d67726f757005627269616e
030a746573742d67726f757006637275737479
030a746573742d67726f7570097468652d636c6f776e
0401010006737465766965036f6e6503666f6f04047468697300026973000161000c6d6573736167655f7061746800
040101010c66616d696c792d67726f75700874776f2d7265616403666f6f050474686973000269730001610009646966666572656e74000c6d6573736167655f7061746800
040102010c66616d696c792d67726f75700974776f2d777269746503666f6f050474686973000269730001610009646966666572656e74000c6d6573736167655f7061746800
040101010a746573742d67726f7570036b657903666f6f0504746869730002697300016100056b65796564010845746865726e657405312f322f330c6d6573736167655f7061746800
040101010c66616d696c792d67726f75700477796c6403666f6f0504746869730002697300016100056b65796564010845746865726e6574012a0c6d6573736167655f7061746800
0400010005627269616e0e77796c642d7374616c6c696f6e7303666f6f0504746869730002697300016100056b65796564010845746865726e6574012a0c6d6573736167655f7061746800
";

/// All tables.
pub const TABLES: [&str; 8] =
    [VERSION_ONLY, EXAMPLES_E_TO_K, EXAMPLE_A, EXAMPLE_B, EXAMPLE_C, EXAMPLE_D, INTERFACES, MESSAGE_PATHS];

/// A policy that permits nobody.
pub const POLICY_OF_NOBODY: &str = r#"{"name":"p","allow_rules":[]}"#;

/// The example of document 000: alice and bob may call all of gNSI.ssh.
pub const SSH_POLICY: &str = r#"{
  "name": "gNSI.ssh policy",
  "allow_rules": [{
    "name": "admin-access",
    "source": {
      "principals": [
        "spiffe://company.com/sa/alice",
        "spiffe://company.com/sa/bob"
      ]
    },
    "request": {
      "paths": [
        "/gnsi.ssh.Ssh/*"
      ]
    }
  }]
}
"#;

/// The policy that document 000 uploads: the same, with denials for marge and don.
pub const SSH_POLICY_WITH_DENIALS: &str = r#"{
       "name": "gNSI.ssh policy",
       "allow_rules": [{
         "name": "admin-access",
         "source": {
           "principals": [
             "spiffe://company.com/sa/alice",
             "spiffe://company.com/sa/bob"
           ]
         },
         "request": {
           "paths": [
             "/gnsi.ssh.Ssh/*"
           ]
         }
       }],
       "deny_rules": [{
         "name": "sales-access",
         "source": {
           "principals": [
             "spiffe://company.com/sa/marge",
             "spiffe://company.com/sa/don"
           ]
         },
         "request": {
           "paths": [
             "/gnsi.ssh.Ssh/MutateAccountCredentials",
             "/gnsi.ssh.Ssh/MutateHostCredentials"
           ]
         }
       }]
     }
"#;

/// The example of document 002.
pub const EXAMPLE_POLICY: &str = r#"{
	"name": "example-policy",
	"allow_rules": [
		{
			"name": "admin-access",
			"source": {
				"principals": [
					"spiffe://foo.com/sa/admin1",
					"spiffe://foo.com/sa/admin2"
				]
			},
			"request": {
				"paths": ["/pkg.service/*"]
			}
		},
		{
			"name": "dev-access",
			"source": {
				"principals": ["*", ""]
			},
			"request": {
				"paths": [
					"/pkg.service/foo",
					"/pkg.service/bar"
				],
				"headers": [
					{
						"key": "dev-path",
						"values": ["/dev/path/*"]
					}
				]
			}
		}
	],
	"deny_rules": [
		{
			"name": "deny-access",
			"request": {
				"paths": [
					"*/secret"
				]
			}
		}
	]
}
"#;

/// The example in the definition that document 000 quotes, there in YAML.
pub const SERVICE_POLICY: &str = r#"{
  "name": "example-policy",
  "allow_rules": [
    {
      "name": "admin-access",
      "source": {
        "principals": [
          "spiffe://foo.com/sa/admin1",
          "spiffe://foo.com/sa/admin2",
          "spiffe://foo.com/sa/admin3"
        ]
      },
      "request": { "paths": ["/pkg.service/*"] }
    },
    {
      "name": "dev-access",
      "source": { "principals": ["spiffe://foo.com/sa/dev"] },
      "request": { "paths": ["/pkg.service/foo", "/pkg.service/bar"] }
    }
  ]
}
"#;

/// All policies.
pub const POLICIES: [&str; 5] = [POLICY_OF_NOBODY, SSH_POLICY, SSH_POLICY_WITH_DENIALS, SERVICE_POLICY, EXAMPLE_POLICY];

/// Values of JSON that are no policy.
pub const JSON: [&str; 27] = [
    "{}",
    "[]",
    "\"\"",
    "0",
    "-0",
    "10",
    "-1.50e+10",
    "0E0",
    "1e5",
    "0.0",
    "-1.0E-0",
    "1e400",
    "123456789012345678901234567890e999999999",
    "true",
    "false",
    "null",
    r#""\"\\\/\b\f\n\r\t\u00aF""#,
    r#""\u0000""#,
    r#""\uD800""#,
    r#""\uDC00\ud800""#,
    "[1,2]",
    "[[],[]]",
    "[{}]",
    "[ 1 , 2 ]",
    " \t\r\n[ \r\n\t]\n",
    "{\"a\":1}",
    "{ \"a\" : [ { } ] , \"b\" : \"\" }",
];

/// Texts that are no value of JSON, nor is one that has them where it should have one.
pub const NO_JSON: [&str; 65] = [
    "{",
    "}",
    "[",
    "]",
    "[}",
    "{]",
    "[]]",
    "{}{}",
    "[1,]",
    "[,]",
    "[,1]",
    "[1 2]",
    "[1,,2]",
    "{,}",
    "{\"a\"}",
    "{\"a\":}",
    "{\"a\" 1}",
    "{\"a\":1,}",
    "{\"a\":1 \"b\":2}",
    "{a:1}",
    "{1:1}",
    "1 2",
    "01",
    "-01",
    "-",
    "--1",
    "+1",
    "1-",
    "1.",
    "1.e1",
    ".5",
    "1e",
    "1e+",
    "0e",
    "0x0",
    "NaN",
    "-Infinity",
    "True",
    "tru",
    "nul",
    "nullx",
    "truefalse",
    "\"",
    "\"\\",
    "\"\\\"",
    "\"a\"b",
    "'a'",
    r#""\x""#,
    r#""\U0041""#,
    r#""\u""#,
    r#""\u004""#,
    r#""\u00g0""#,
    "\"a\tb\"",
    "\"a\nb\"",
    "\"\u{7f}\"",
    "\"\u{80}\"",
    "\"\u{e9}\"",
    "\u{feff}{}",
    "\u{a0}1",
    "\u{b}1",
    "\u{c}[]",
    "1\0",
    "[\0]",
    "//\n{}",
    "/* */1",
];
