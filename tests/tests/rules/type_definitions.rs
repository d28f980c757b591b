//! Type definitions in text, their forms and signatures (RULES 17).

use reference::crc::{extend, hash};
use reference::dsdl::call::{Given, Refusal, Signed};
use reference::dsdl::kinds::*;
use reference::dsdl::RULES;

/// The form of a text under the name a.T, without the name and its line feed; or the line at fault.
fn form(text: &[u8]) -> Result<String, usize> {
    let definition = RULES.definition(b"a.T", text).map_err(|fault| fault.line)?;
    let form = String::from_utf8(definition.form).expect("ASCII");
    let rest = form.strip_prefix("a.T").expect("the name first");
    Ok(rest.strip_prefix('\n').unwrap_or(rest).to_string())
}

fn has_form(text: &str, expected: &str) {
    assert_eq!(form(text.as_bytes()), Ok(expected.to_string()), "{text:?}");
}

/// Of single lines, parted by `|`.
fn all_nothing(lines: &str) {
    for line in lines.split('|') {
        has_form(line, "");
    }
}

fn all_wrong(lines: &str) {
    for line in lines.split('|') {
        assert_eq!(form(line.as_bytes()), Err(1), "{line:?}");
    }
}

fn fault(name: &str, text: &str) -> (usize, Kind) {
    let fault = RULES.definition(name.as_bytes(), text.as_bytes());
    let fault = fault.expect_err("a fault");
    (fault.line, fault.kind)
}

fn signed(given: &[(&str, &str)]) -> Result<Vec<Signed>, Refusal> {
    let given: Vec<Given> = given
        .iter()
        .map(|(name, text)| (name.as_bytes(), text.as_bytes()))
        .collect();
    RULES.signatures(&given)
}

fn refused(given: &[(&str, &str)]) -> (u8, usize, usize) {
    let refusal = signed(given).expect_err("a refusal");
    (refusal.number, refusal.definition, refusal.line)
}

const MESSAGE: &str = "#\n# A header comment.\n#\n   @union\nfloat16    foo\n\
    float16 BAR = 12.34 # This is BAR\n  truncated   uint8 bar\nint32 FOO = - 42";
const SERVICE: &str = "#\n# A header comment.\n#\nB foobar\n  float16 foo\n\
    float16 BAR = 12.34 # This is BAR\n---\ntruncated uint8 foo\nint32 BAR = -42\nroot.ns1.B baz";

#[test]
fn examples_of_normalization() {
    let form = |text: &str| RULES.definition(b"root.A", text.as_bytes()).unwrap().form;
    assert_eq!(
        form(MESSAGE),
        b"root.A\n@union\nsaturated float16 foo\ntruncated uint8 bar"
    );
    assert_eq!(
        form(SERVICE),
        b"root.A\nroot.B foobar\nsaturated float16 foo\n---\ntruncated uint8 foo\nroot.ns1.B baz"
    );
}

/// Folder, file and public signature of each type, and the files of the types nested in it.
const PUBLIC: [(&str, u64, &[&str]); 9] = [
    ("protocol/341.NodeStatus", 0x0F08_68D0_C1A7_C6F1, &[]),
    (
        "protocol/1.GetNodeInfo",
        0xEE46_8A81_21C4_6A9E,
        &[
            "protocol/341.NodeStatus",
            "protocol/SoftwareVersion",
            "protocol/HardwareVersion",
        ],
    ),
    (
        "protocol/dynamic_node_id/1.Allocation",
        0x0B2A_8126_20A1_1D40,
        &[],
    ),
    ("protocol/debug/16370.KeyValue", 0xE02F_25D6_E0C9_8AE0, &[]),
    (
        "protocol/debug/16383.LogMessage",
        0xD654_A48E_0C04_9D75,
        &["protocol/debug/LogLevel"],
    ),
    (
        "equipment/power/1092.BatteryInfo",
        0x249C_2654_8A71_1966,
        &[],
    ),
    ("equipment/esc/1030.RawCommand", 0x217F_5C87_D7EC_951D, &[]),
    (
        "protocol/param/11.GetSet",
        0xA7B6_22F9_39D1_A4D5,
        &[
            "protocol/param/Value",
            "protocol/param/NumericValue",
            "protocol/param/Empty",
        ],
    ),
    (
        "protocol/param/10.ExecuteOpcode",
        0x3B13_1AC5_EB69_D2CD,
        &[],
    ),
];

/// The full name that a path stands for, and the file's text.
fn file(path: &str) -> (String, String) {
    let whole = format!(
        "{}/definitions/uavcan/{path}.uavcan",
        env!("CARGO_MANIFEST_DIR")
    );
    let text = std::fs::read_to_string(&whole).expect(&whole);
    let (folder, name) = path.rsplit_once('/').expect("a folder");
    let name = name.rsplit_once('.').map_or(name, |(_, name)| name);
    (format!("uavcan.{}.{name}", folder.replace('/', ".")), text)
}

#[test]
fn signatures_of_the_public_set() {
    for (path, signature, nested) in PUBLIC {
        let files: Vec<_> = [path].iter().chain(nested).map(|path| file(path)).collect();
        let given: Vec<_> = files
            .iter()
            .map(|(name, text)| (name.as_str(), text.as_str()))
            .collect();
        let signed = signed(&given).expect(path);
        assert_eq!(signed[0].signature, signature, "{path}");
    }
}

/// D1, D3, D4, D6.
#[test]
fn union_directives() {
    has_form(
        "@union\nuint8 a\nuint8 b",
        "@union\nsaturated uint8 a\nsaturated uint8 b",
    );
    assert_eq!(fault("a.T", "union\nuint8 a\nuint8 b").0, 1);
    assert_eq!(
        fault("a.T", "@union\n@union\nuint8 a\nuint8 b"),
        (2, SECOND_UNION)
    );
    assert_eq!(fault("a.T", "@union 1\nuint8 a\nuint8 b"), (1, DIRECTIVE));
    assert_eq!(fault("a.T", "@Union\nuint8 a\nuint8 b"), (1, DIRECTIVE));
    assert_eq!(
        fault("a.T", "uint8 A = 1\n@union\nuint8 a\nuint8 b"),
        (2, UNION_LATE)
    );
    assert_eq!(
        fault("a.T", "void1\n@union\nuint8 a\nuint8 b"),
        (2, UNION_LATE)
    );
    has_form(
        "uint8 a\n---\n@union\nuint8 a\nuint8 b",
        "saturated uint8 a\n---\n@union\nsaturated uint8 a\nsaturated uint8 b",
    );
}

/// D2, D5.
#[test]
fn unions_need_two_fields() {
    assert_eq!(fault("a.T", "\n@union\nuint8 a"), (2, FEW_AT_END));
    assert_eq!(
        fault("a.T", "@union\nuint8 a\nuint8 B = 1"),
        (1, FEW_AT_END)
    );
    assert_eq!(fault("a.T", "@union\n\n---\nuint8 9"), (1, FEW_AT_MARKER));
    assert_eq!(fault("a.T", "@union\nuint8 a\nuint8 9\n---"), (3, NAME));
    assert_eq!(
        fault("a.T", "---\n@union\nuint8 a\n---"),
        (4, SECOND_MARKER)
    );
    has_form("@union\nvoid3\nuint8 a", "@union\nvoid3\nsaturated uint8 a");
    has_form("@union\nvoid3\nvoid3", "@union\nvoid3\nvoid3");
}

/// D7, D10.
#[test]
fn types() {
    for word in [
        "uint1", "uint65", "uint08", "uint", "int0", "int1", "int65", "int", "void0", "void65",
        "float24", "float8", "boolean", "Bool", "string",
    ] {
        has_form(&format!("{word} x"), &format!("a.{word} x"));
        all_wrong(word);
        assert_eq!(fault("a.T", &format!("{word} X = 1")), (1, CONSTANT_TYPE));
    }
    for width in 2..=64 {
        has_form(
            &format!("uint{width} x"),
            &format!("saturated uint{width} x"),
        );
        has_form(&format!("int{width} x"), &format!("saturated int{width} x"));
    }
    for width in 1..=64 {
        has_form(&format!("void{width}"), &format!("void{width}"));
    }
    all_wrong("void5 x|void5[3] x|void5[3]|saturated void5|void5 X = 0");
    all_wrong("uint8|a.B|uint8[3]|saturated|saturated uint8|a..B x|.B x");
    all_wrong("a. x|9a x|a.9 x|_a x|a-b x|a,b x|*");
}

/// D8, D9, D53.
#[test]
fn cast_modes() {
    has_form("truncated bool x", "truncated bool x");
    has_form("bool x", "saturated bool x");
    has_form("saturated int5[2] x", "saturated int5[2] x");
    all_wrong("saturated x|truncated B x|saturated a.B x|saturated truncated uint8 x");
    all_wrong("saturated saturated x|Saturated uint8 x|truncated[3] x y");
    has_form("truncated[3] x", "a.truncated[3] x");
}

/// D11, D12, D16, D17.
#[test]
fn sizes() {
    has_form("uint8[<9] x", "saturated uint8[<=8] x");
    has_form("uint8[<=9] x", "saturated uint8[<=9] x");
    has_form("uint8[9] x", "saturated uint8[9] x");
    has_form("bool[0x10] x", "saturated bool[16] x");
    has_form("bool[<0b11] x", "saturated bool[<=2] x");
    has_form("bool[<=0o17] x", "saturated bool[<=15] x");
    has_form("B[<=+3] x", "a.B[<=3] x");
    has_form("B[+0xfF] x", "a.B[255] x");
    has_form("b.B[0x0001] x", "b.B[1] x");
    all_wrong("uint8 [3] x|uint8[ 3] x|uint8[3 ] x|uint8[<= 3] x|uint8[< =3] x");
    all_wrong("uint8[0] x|uint8[<1] x|uint8[<0] x|uint8[<=0] x|uint8[0x0] x");
    all_wrong("uint8[-3] x|uint8[--3] x|uint8[++3] x|uint8[] x|uint8[<] x");
    all_wrong("uint8[03] x|uint8[0X3] x|uint8[0x] x|uint8[3.0] x|uint8[1e1] x");
    all_wrong("uint8[2][3] x|uint8[3]] x|uint8[3 x|uint83] x|uint8[=3] x");
    all_wrong("uint8[>3] x|uint8[<==3] x|uint8['a'] x|uint8[true] x|[3] x");
}

#[test]
fn sizes_of_any_number_of_digits() {
    let digits = "9".repeat(3000);
    has_form(
        &format!("uint8[{digits}] x"),
        &format!("saturated uint8[{digits}] x"),
    );
    let zeros = "0".repeat(3000);
    has_form(
        &format!("uint8[<1{zeros}] x"),
        &format!("saturated uint8[<={digits}] x"),
    );
    has_form(
        "uint8[0xffffffffffffffffffffffffffffffff] x",
        "saturated uint8[340282366920938463463374607431768211455] x",
    );
    has_form(
        "uint8[<18446744073709551617] x",
        "saturated uint8[<=18446744073709551616] x",
    );
    has_form(
        "uint8[0x10000000000000000] x",
        "saturated uint8[18446744073709551616] x",
    );
    has_form(
        "uint8[<0x10000000000000000] x",
        "saturated uint8[<=18446744073709551615] x",
    );
    let binary = format!("0b1{}", "0".repeat(100));
    has_form(
        &format!("uint8[{binary}] x"),
        "saturated uint8[1267650600228229401496703205376] x",
    );
}

/// D13, D14, D15, D18.
#[test]
fn numbers() {
    all_nothing("int8 X = 0|int8 X = 12|int8 X = -12|int8 X = +12|int8 X = - 12");
    all_nothing("int8 X = +\t 12|int8 X = 0x00|int8 X = -0x0|int8 X = +0b0");
    all_nothing("int8 X = -0.0|int8 X = -0e5|int8 X = 00.5e1");
    all_nothing("int8 X = 0b1101|int8 X = -0b101101|int8 X = 0o123|int16 X = -0o777");
    all_nothing("int16 X = 0x123|int16 X = -0x12|float32 X = 15.75|float32 X = 1.575E1");
    all_nothing("float32 X = 1575e-2|float32 X = -2.5e-3|float32 X = +25E-4");
    all_nothing("float32 X = - 25E+04|float32 X = 000.5|uint8 X = 007e0|uint8 X = 1e2");
    all_wrong("int8 X = -0|int8 X = +0|int8 X = - 0|int8 X = 00|int8 X = 012");
    all_wrong("int8 X = 0X1|int8 X = 0B1|int8 X = 0O7|int8 X = 0x|int8 X = 0b2");
    all_wrong("int8 X = 0o8|int8 X = 0xg|int8 X = 1_0|int8 X = 1 0|int8 X = --1");
    all_wrong("int8 X = -|int8 X = .5|int8 X = 5.|int8 X = 5.e1|int8 X = 1e");
    all_wrong("int8 X = 1e+|int8 X = e1|int8 X = 1.0f|int8 X = 0x1.0|int8 X = 1e1.0");
    all_wrong("float32 X = NaN|float32 X = inf|float32 X = -inf|int8 X = 1e1e1");
    all_wrong("int8 X = 1.2.3|int8 X = 1e 1|int8 X =|int8 X = |int8 X = = 1");
}

/// D15, D21 to D24.
#[test]
fn words_and_characters() {
    all_nothing("bool X = true|bool X = false|uint8 X = true|float16 X = false");
    all_wrong("bool X = True|bool X = -true|bool X = + true|bool X = truefalse");
    all_nothing("uint8 X = 'a'|uint8 X = ' '|uint8 X = '\"'|uint8 X = '~'|int8 X = '\\''");
    all_nothing("uint8 X = '\\x7f'|uint8 X = '\\x7F'|uint8 X = '\\x23'|uint8 X = '\\x00'");
    for escape in "abtnvfr0\\'\"".chars() {
        all_nothing(&format!("uint8 X = '\\{escape}'\t "));
    }
    for escape in "cdeghijklmopqsuwxyzABN123 ".chars() {
        all_wrong(&format!("uint8 X = '\\{escape}'"));
    }
    all_wrong("uint8 X = '#'|uint8 X = '\t'|uint8 X = '\x7f'|uint8 X = '\u{e9}'");
    all_wrong("uint8 X = '''|uint8 X = '\\'|uint8 X = ''|uint8 X = 'ab'|uint8 X = 'a");
    all_wrong("uint8 X = '|uint8 X = a|uint8 X = \"a\"|uint8 X = 'a' b|uint8 X = -'a'");
    all_wrong("uint8 X = '\\x80'|uint8 X = '\\xff'|uint8 X = '\\x7'|uint8 X = '\\x007'");
    all_wrong("uint8 X = '\\x+7'|uint8 X = '\\X41'|uint8 X = '\\xg0'");
}

/// D19, D40, D41.
#[test]
fn values_of_integers() {
    all_nothing("uint8 X = 255|uint8 X = 0|uint8 X = -0.0|uint8 X = 1.0|uint8 X = 1e2");
    all_nothing("uint8 X = 25500e-2|uint8 X = 0.0255e4|bool X = 1|bool X = 1.0");
    all_nothing("bool X = 10e-1|bool X = '\\x01'|int8 X = -128|int8 X = 127|int8 X = -1280e-1");
    all_nothing("uint64 X = 18446744073709551615|int64 X = -9223372036854775808");
    all_nothing("uint64 X = 0xFFFFFFFFFFFFFFFF|int64 X = 9223372036854775807|uint2 X = 3");
    all_nothing("uint7 X = 'a'|uint8 X = 0e999999999999999999999999|int2 X = -2");
    all_wrong("uint8 X = 256|uint8 X = -1|uint8 X = 1.5|uint8 X = -0.5|uint8 X = 1e-1");
    all_wrong("bool X = 2|bool X = -1|bool X = 0.5|int8 X = 128|int8 X = -129");
    all_wrong("int8 X = -128.5|uint64 X = 18446744073709551616|uint6 X = 'a'");
    all_wrong("int64 X = 9223372036854775808|int64 X = -9223372036854775809|uint2 X = 4");
    all_wrong("truncated uint8 X = 300|saturated uint8 X = 300");
    all_wrong("uint8 X = 1e999999999999999999999");
    all_wrong("uint64 X = 1e-99999999999999999999|uint64 X = 18446744073709551615.000000001");
}

/// D20.
#[test]
fn values_of_floats() {
    all_nothing("float16 X = 12.34|float16 X = 65519.99|float16 X = -65519.999999999999999");
    all_nothing("float16 X = 65504|float32 X = 16777217|float32 X = 1e-60|float32 X = 'a'");
    all_nothing("float64 X = 1e308|float64 X = 1e-99999999999999999999");
    all_nothing("float64 X = 1.7976931348623158e308");
    all_wrong("float16 X = 65520|float16 X = -65520|float16 X = 6.552e4|float16 X = 0xFFFF");
    all_wrong("float64 X = 1e309|float64 X = 1.7976931348623159e308");
    all_wrong("float64 X = 1e99999999999999999999");
    let bound = "340282356779733661637539395458142568448";
    all_wrong(&format!("float32 X = {bound}|float32 X = -{bound}.0"));
    all_nothing("float32 X = 340282356779733661637539395458142568447.9999");
}

/// D25, D27 to D29.
#[test]
fn words_and_blanks() {
    has_form("\t uint8 \t x \t", "saturated uint8 x");
    has_form(" \t--- # marker", "---");
    has_form("void7#", "void7");
    all_nothing("uint8 X = 1|uint8  X\t=  1 |uint8 X = 1# one|| \t |#|# \x00\x7f");
    assert_eq!(
        form(b"#\xff\x00\xfe\nuint8 x#\x80"),
        Ok("saturated uint8 x".to_string())
    );
    all_wrong("uint8 X=1|uint8 X= 1|uint8 X =1|uint8 x\x0b|uint8\x0cx|\x0c");
    all_wrong("uint8 x\0|\u{feff}uint8 x|--|----|- - -|--- ---|uint8 x y|uint8 x =");
    all_wrong("uint8 x;|uint8 x, y|@|@deprecated|uint8 9x|uint8 _x|uint8 x-y|uint8 \u{e9}");
}

/// D26, D42.
#[test]
fn line_ends() {
    for end in ["\n", "\r", "\r\n"] {
        has_form(
            &["uint8 a", "", "uint8 b", ""].join(end),
            "saturated uint8 a\nsaturated uint8 b",
        );
        assert_eq!(form(["#", "", "x"].join(end).as_bytes()), Err(3));
        assert_eq!(
            form(["uint8 a", "uint8 a", ""].join(end).as_bytes()),
            Err(2)
        );
    }
    assert_eq!(form(b"\n\rx"), Err(3));
    assert_eq!(form(b"\r\r\nx"), Err(3));
    assert_eq!(form(b"# \rx"), Err(2));
    assert_eq!(
        form(&[b"\n".repeat(4095).as_slice(), b"x"].concat()),
        Err(4096)
    );
}

/// D33, D43.
#[test]
fn names_of_attributes() {
    for name in [
        "uint8",
        "true",
        "saturated",
        "void5",
        "X_9",
        "a",
        &"n".repeat(300),
    ] {
        has_form(&format!("uint8 {name}"), &format!("saturated uint8 {name}"));
    }
    assert_eq!(fault("a.T", "uint8 a\nuint8 A\nuint8 a"), (3, NAME_TWICE));
    assert_eq!(fault("a.T", "uint8 a\nuint8 a = 1"), (2, NAME_TWICE));
    assert_eq!(fault("a.T", "uint8 a = 1\nB a"), (2, NAME_TWICE));
    has_form(
        "uint8 a\n---\nuint8 a",
        "saturated uint8 a\n---\nsaturated uint8 a",
    );
    has_form("void3\nvoid3", "void3\nvoid3");
    assert_eq!(fault("a.T", "---\nuint8 a\n---"), (3, SECOND_MARKER));
}

/// D46.
#[test]
fn empty_texts() {
    has_form("", "");
    has_form("# nothing", "");
    has_form("---", "---");
    assert_eq!(signed(&[("a.T", "")]).unwrap()[0].signature, hash(b"a.T"));
}

/// D30, D34 to D36.
#[test]
fn names_of_definitions() {
    let longest = format!("a.{}", "b".repeat(78));
    for name in ["a.b", "A.B9_", "uavcan.x.y.z", longest.as_str()] {
        assert!(RULES.definition(name.as_bytes(), b"").is_ok(), "{name}");
    }
    let longer = format!("{longest}b");
    for (name, kind) in [
        ("a", NO_NAMESPACE),
        ("", DEFINITION_NAME),
        (".", DEFINITION_NAME),
        ("a.", DEFINITION_NAME),
        ("a..b", DEFINITION_NAME),
        ("a.9", DEFINITION_NAME),
        ("a._", DEFINITION_NAME),
        ("a.b c", DEFINITION_NAME),
        (longer.as_str(), LONG_NAME),
    ] {
        assert_eq!(fault(name, "wrong"), (0, kind));
    }
    assert!(signed(&[("a.b", ""), ("a.b.C", "")]).is_ok());
    assert!(signed(&[("a.b", ""), ("a.B", ""), ("A.b", "")]).is_ok());
}

/// D31, D32.
#[test]
fn nested_names() {
    let long = format!("b.{}", "c".repeat(79));
    assert_eq!(fault("a.T", &format!("{long} x")), (1, LONG_NESTED));
    assert_eq!(
        refused(&[("a.T", &format!("{} x", "c".repeat(79)))]),
        (41, 0, 0)
    );
    assert_eq!(refused(&[("a.T", "b.U x"), ("a.b.U", "")]), (41, 0, 0));
    let full = signed(&[("a.T", "a.U x"), ("a.U", "")]).unwrap();
    assert_eq!(full, signed(&[("a.T", "U x"), ("a.U", "")]).unwrap());
    assert_eq!(refused(&[("a.b.T", "U x"), ("a.U", "")]), (41, 0, 0));
    assert!(signed(&[("a.T", "uint65 x"), ("a.uint65", "")]).is_ok());
    let shadowed = signed(&[("a.T", "uint8 x\na.uint8 y"), ("a.uint8", "")]).unwrap();
    assert_eq!(shadowed[0].form, b"a.T\nsaturated uint8 x\na.uint8 y");
}

/// D37, D38.
#[test]
fn nested_signatures() {
    let given = [
        ("a.T", "U x\nV y\nU[3] z\n---\nU w"),
        ("a.U", "bool b"),
        ("a.V", "U x"),
    ];
    let signed = signed(&given).unwrap();
    let inner = hash(b"a.U\nsaturated bool b");
    let middle = extend(hash(b"a.V\na.U x"), inner);
    let own = hash(b"a.T\na.U x\na.V y\na.U[3] z\n---\na.U w");
    let outer = [inner, middle, inner, inner].into_iter().fold(own, extend);
    let signatures: Vec<u64> = signed.iter().map(|one| one.signature).collect();
    assert_eq!(signatures, [outer, inner, middle]);
}

/// D39, D44.
#[test]
fn chains() {
    let chain = [("a.A", "B x"), ("a.B", "C x"), ("a.C", "D x"), ("a.D", "")];
    assert!(signed(&chain).is_ok());
    let [a, b, c, _] = chain;
    assert_eq!(refused(&[a, b, c, ("a.D", "E x"), ("a.E", "")]), (42, 0, 0));
    assert_eq!(refused(&[("a.A", "A x")]), (42, 0, 0));
    assert_eq!(refused(&[("a.A", "B x"), ("a.B", "A x")]), (42, 0, 0));
    assert_eq!(refused(&[("a.A", "A x\nB x"), ("a.B", "C y")]), (40, 1, 2));
    assert_eq!(refused(&[("a.A", "A x"), ("a.B", "C y")]), (41, 0, 0));
    assert_eq!(refused(&[("a.A", "A x\n---")]), (41, 0, 0));
    assert_eq!(refused(&[("a.A", "B x"), ("a.B", "---")]), (41, 0, 0));
}

/// D45, D47, D48, D50.
#[test]
fn order_of_refusals() {
    assert_eq!(signed(&[]), Ok(vec![]));
    let names: Vec<String> = (0..9).map(|number| format!("a.T{number}")).collect();
    let nine: Vec<_> = names.iter().map(|name| (name.as_str(), "wrong")).collect();
    assert_eq!(refused(&nine), (43, 0, 0));
    assert_eq!(refused(&nine[..8]), (40, 1, 1));
    let comment = "#".repeat(4096);
    assert!(signed(&[("a.T", &comment)]).is_ok());
    let longer = format!("{comment}#");
    assert_eq!(refused(&[("a.S", "wrong"), ("a.T", &longer)]), (43, 0, 0));
    assert_eq!(
        refused(&[("9", "wrong"), ("a.T", ""), ("9", "")]),
        (43, 0, 0)
    );
    let name = "n".repeat(5000);
    assert_eq!(refused(&[("a.T", ""), (&name, "wrong")]), (40, 2, 0));
    assert_eq!(refused(&[("a.T", "\nwrong"), ("9", "wrong")]), (40, 1, 2));
    assert_eq!(refused(&[("a.T", "U x"), ("9", "wrong")]), (40, 2, 0));
}

/// RULES 17.13: the form of a form, and what does not matter.
#[test]
fn laws() {
    for (name, text) in [("root.A", MESSAGE), ("root.A", SERVICE)] {
        let read = |text: &[u8]| RULES.definition(name.as_bytes(), text).unwrap();
        let definition = read(text.as_bytes());
        let again = &definition.form[name.len() + 1..];
        assert_eq!(read(again), definition);
        let spaced = text.replace(' ', " \t ").replace('\n', " # more\r\n\r\n");
        assert_eq!(read(spaced.as_bytes()), definition);
    }
}

/// D51: lent bytes, the room of outputs, and the word.
#[test]
fn lent_bytes() {
    let source = b"a.Tbool ba.U\nuint9 zrest";
    let lengths = [3u32, 6, 3, 8, 77].map(u32::to_le_bytes).concat();
    let form = b"a.T\nsaturated bool ba.U\nsaturated uint9 z";
    let (mut out, mut records) = (vec![7; form.len() + 1], vec![7; 26]);
    assert_eq!(RULES.call(source, &lengths, &mut out, &mut records), 0);
    assert_eq!(out, [form.as_slice(), &[7]].concat());
    let first = [&20u32.to_le_bytes()[..], &hash(&form[..20]).to_le_bytes()].concat();
    let second = [&21u32.to_le_bytes()[..], &hash(&form[20..]).to_le_bytes()].concat();
    assert_eq!(records, [first, second, vec![7, 7]].concat());

    let refuse = |source: &[u8], lengths: &[u8], room: usize, records: usize| {
        let (mut out, mut records) = (vec![7; room], vec![7; records]);
        let word = RULES.call(source, lengths, &mut out, &mut records);
        assert!(out.iter().chain(&records).all(|&byte| byte == 7));
        word
    };
    assert_eq!(refuse(source, &lengths, form.len() - 1, 24), 8);
    assert_eq!(refuse(source, &lengths, form.len(), 23), 8);
    assert_eq!(refuse(&source[..19], &lengths, 100, 24), 43);
    assert_eq!(
        refuse(
            b"a.Ta.U\n\nwrong",
            &[3u32, 0, 3, 7].map(u32::to_le_bytes).concat(),
            0,
            0
        ),
        40 | 2 << 8 | 3 << 16
    );
    assert_eq!(refuse(b"", &[], 0, 0), 0);
    assert_eq!(refuse(b"", &[255; 7], 0, 0), 0);
    assert_eq!(refuse(b"", &[255; 8], 0, 0), 43);
    assert_eq!(refuse(b"", &[0; 72], 0, 0), 43);
}
