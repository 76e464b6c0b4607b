//! How open points are read, each with a session and its listing.

use plain::session::{session, session_on_slice, Tables};
use std::io::Write;
use std::process::{Command, Stdio};

fn check_bytes(text: &[u8], expected: &str) {
    let listing = session(text, usize::MAX).listing.unwrap_or_default();
    let shown = String::from_utf8_lossy(text);
    assert_eq!(String::from_utf8_lossy(&listing), expected, "{shown}");
}

fn check(text: &str, expected: &str) {
    check_bytes(text.as_bytes(), expected);
}

/// A component `a` with the versions v (standard) and w, no module.
const A: &str = "spec a provides f; std v; w requires g end\n";

#[test]
fn names_have_at_most_32_bytes() {
    let name = "n".repeat(32);
    check(&format!("supplies {name}"), "1,4\n");
    check(&format!("supplies {name}n"), "1,23\n");
    check(&format!("{A}mod a; v impl \"{name}\"; w impl \"./-_\" end"), "1,0\n2,0\n");
    check(&format!("{A}mod a; v impl \"{name}n\"; w impl \"x\" end"), "1,0\n2,23\n");
    check(&format!("{A}mod a; v impl \"\"; w impl \"x\" end"), "1,0\n2,23\n");
    check("undefinedundefined", "1,23\n");
}

#[test]
fn names_begin_with_letter_or_digit() {
    check("supplies -a", "1,23\n");
    check("supplies _a", "1,23\n");
    check("supplies 0-_", "1,4\n");
}

#[test]
fn keywords_are_no_names() {
    for word in ["in", "all-of", "parts", "end", "quit", "std"] {
        check(&format!("supplies {word}"), "1,23\n");
        check(&format!("spec a provides {word}; std v end"), "1,23\n");
        check(&format!("spec a provides ; std {word} end"), "1,23\n");
    }
    check("in", "1,23\n");
    check("supplies In supplies END supplies all-off", "1,4\n2,4\n3,4\n");
    check("spec a provides ; std v end mod a; v impl \"end\" end", "1,0\n2,0\n");
}

#[test]
fn a_command_ends_with_its_last_token() {
    check("undefined {open", "1,0\n2,23\n");
    check(&format!("{A}needs a.w.w"), "1,0\n2,0\n2,g\n3,23\n");
    check("out \"x\"", "1,0\n2,23\n");
    check("undefined;", "1,0\n2,23\n");
    check("undefined 7", "1,0\n2,23\n");
    check("modvar a.v impl \"x\" end", "1,6\n2,23\n");
    check("sysvar a.v = a", "1,23\n");
}

#[test]
fn text_may_end_between_commands_only() {
    for text in ["spec", "spec a provides", "needs a", "needs a.", "choice", "choice f", "mod a;"] {
        check(text, "1,23\n");
    }
    check("", "");
    check(" \t\r\n{}", "");
    check("undefined", "1,0\n");
}

#[test]
fn quit_ends_at_once() {
    check("quit", "");
    check("undefined quit $ {open", "1,0\n");
    check("quit\0", "");
    check("quit-", "1,23\n");
}

#[test]
fn other_bytes() {
    check_bytes(b"undefined\x0bundefined", "1,0\n2,23\n");
    check_bytes(b"undefined\0undefined", "1,0\n2,23\n");
    check_bytes(b"undefined\x0cundefined", "1,0\n2,23\n");
    check_bytes(b"supplies caf\xc3\xa9", "1,4\n2,23\n");
    check_bytes(b"{\0\xff\x0b\"{ }undefined", "1,0\n");
    check("{ { } }", "1,23\n");
    check("undefined }", "1,0\n2,23\n");
    check("\u{feff}undefined", "1,23\n");
}

#[test]
fn spaces_and_comments_between_tokens() {
    check(&format!("{A}needs a {{x}} . {{y}}\n w"), "1,0\n2,0\n2,g\n");
    check("spec a provides;std v end mod a;v impl\"x\"end", "1,0\n2,0\n");
    check("unused{}unused", "1,0\n2,0\n");
    check("un{}used", "1,23\n");
    check("spec a provides ; std v end mod a; v impl \"x y\" end", "1,0\n2,23\n");
    check("spec a provides ; std v end mod a; v impl \"{}\" end", "1,0\n2,23\n");
}

#[test]
fn one_version_carries_std() {
    check("spec a provides f; v end", "1,23\n");
    check("spec a provides f; std v; std w end", "1,23\n");
    check("spec a provides f; std v; std v end", "1,23\n");
    check("spec a provides f; std v; v end", "1,3\n");
}

#[test]
fn lists_of_the_language() {
    check("spec a provides f; std v requires end", "1,23\n");
    check("spec a provides ,f; std v end", "1,23\n");
    check("spec a provides f,; std v end", "1,23\n");
    check("spec a provides f; std v; end", "1,23\n");
    check("spec a; std v end", "1,23\n");
    check("sys a use ; v = a end", "1,23\n");
    check("sys a use a; v = end", "1,23\n");
    check("choice f g end", "1,23\n");
    check("spec a provides f; std v requires all-of b end", "1,23\n");
}

#[test]
fn a_facility_may_be_listed_twice() {
    let text =
        "spec a provides f, f; std v requires g, g end supplies a needs a.v out choice f, f end";
    let expected = "1,0\n2,0\n2,f\n3,0\n3,g\n4,0\n\
        spec a provides f; std v requires g end\n5,0\n5,a,v\n";
    check(text, expected);
}

/// An accepted choice puts no name into a table: z would come before y.
#[test]
fn choice_names_nothing() {
    let text =
        "choice z end spec a provides y; std v end spec b provides z, y; std v end supplies b";
    check(text, "1,0\n2,0\n3,0\n4,0\n4,y\n4,z\n");
}

/// A refused command puts no name into a table: z would come before y.
#[test]
fn a_refused_command_names_nothing() {
    let text = "spec a provides z; std v requires z end
        spec a provides y; std v end spec b provides z, y; std v end supplies b";
    check(text, "1,13\n2,0\n3,0\n4,0\n4,y\n4,z\n");
}

/// Specs of so many components, and the rows that accept them.
fn components(count: usize) -> (String, String) {
    let specs: String = (0..count).map(|n| format!("spec c{n} provides ; std v end\n")).collect();
    let rows: String = (1..=count).map(|n| format!("{n},0\n")).collect();
    (specs, rows)
}

#[test]
fn places_are_asked_first() {
    let (specs, rows) = components(32);
    check(
        &format!(
            "{specs}spec x provides f; std v requires f end spec x provides ; std v; v end
            sys c0 use x; v = c1 end mod x; v impl \"i\" end sysvar x.v = c0 end
            modvar c0.v impl \"i\" delspec c9 spec x provides ; std v end
            spec c9 provides ; std v end"
        ),
        &format!("{rows}33,24\n34,24\n35,24\n36,24\n37,24\n38,6\n39,0\n40,24\n41,0\n"),
    );
}

#[test]
fn a_new_name_wants_one_place() {
    let (specs, rows) = components(31);
    check(
        &format!(
            "{specs}sys x use x; v = x end sys x use y; v = y end sys x use c0, c0; v = c0 end
            spec y provides ; std v end spec x provides ; std v end"
        ),
        &format!("{rows}32,4\n33,24\n34,3\n35,0\n36,24\n"),
    );
}

#[test]
fn version_facility_and_implementation_places() {
    let versions = |from: usize| -> String {
        let names: Vec<String> = (from..from + 8).map(|n| format!("v{n}")).collect();
        names.join("; ")
    };
    let facilities: Vec<String> = (0..64).map(|n| format!("f{n}")).collect();
    let mut text = format!("spec a provides {}; std v0 end\n", facilities.join(", "));
    let mut rows = "1,0\n".to_string();
    for n in 0..8 {
        text += &format!("spec b{n} provides ; std {} end\n", versions(8 * n));
        rows += &format!("{},0\n", n + 2);
    }
    text += "spec x provides g; std v0 end spec x provides f0; std w end
        choice g end needs a.w sysvar a.w = a end modvar b0.v1 requires g impl \"i\"\n";
    rows += "10,24\n11,24\n12,0\n13,10\n14,24\n15,24\n";
    let mut number = 16;
    for round in 0..32 {
        let item = |n: usize| format!("v{n} impl \"i{}\"", round * 8 + n);
        let items: Vec<String> = (0..8).map(item).collect();
        text += &format!("mod b0; {} end delmod b0\n", items.join("; "));
        rows += &format!("{number},0\n{},0\n", number + 1);
        number += 2;
    }
    text += "mod a; v0 impl \"i256\" end mod a; v0 impl \"i255\" end";
    rows += &format!("{number},24\n{},0\n", number + 1);
    check(&text, &rows);
}

#[test]
fn names_in_no_table() {
    let text = "delspec x supplies x needs x.y standard x whereused x parts x.y
        delmod x delmodvar x.y delsys x delsysvar x.y";
    check(text, "1,4\n2,4\n3,4\n4,4\n5,4\n6,4\n7,6\n8,6\n9,7\n10,7\n");
    let text = "needs a.x parts a.x delmodvar a.x delsysvar a.x
        mod a; v impl \"i\"; w impl \"i\" end delmodvar a.x delsysvar a.x";
    check(&format!("{A}{text}"), "1,0\n2,10\n3,10\n4,6\n5,7\n6,0\n7,10\n8,7\n");
    let text = "spec s provides f; std v end sys s use a; v = a end delsysvar s.x delmodvar s.x";
    check(&format!("{A}{text}"), "1,0\n2,0\n3,0\n4,10\n5,6\n");
    check(
        &format!("{A}choice x end choice f, x end choice f end choice end"),
        "1,0\n2,0\n3,0\n4,0\n4,a,v\n4,a,w\n5,0\n5,a,v\n5,a,w\n",
    );
}

/// A place is held until the session ends, but the component doesn't exist.
#[test]
fn names_of_deleted_components() {
    let text = "delspec a supplies a needs a.v delmod a delsys a choice f end
        spec b provides f; std w; v end choice f end";
    check(&format!("{A}{text}"), "1,0\n2,0\n3,4\n4,4\n5,6\n6,7\n7,0\n8,0\n9,0\n9,b,v\n9,b,w\n");
}

#[test]
fn rows_rise_by_number() {
    let text = "spec z provides q, b; std n; m end spec a provides b, q; std m; n end
        choice end supplies a undefined standard a";
    let expected = "1,0\n2,0\n3,0\n3,z,n\n3,z,m\n3,a,n\n3,a,m\n4,0\n4,q\n4,b\n\
        5,0\n5,z\n5,a\n6,0\n6,m\n";
    check(text, expected);
}

/// New names get the lowest free places in order of mention.
#[test]
fn places_by_order_of_mention() {
    let text = "spec a provides z, y; std w requires x; v requires u, x, t end
        spec b provides t, u, x, y, z; std v; w end supplies b choice y end
        mod b; w impl \"i\"; v impl \"i\" end modvar b.k requires m, l impl \"i\"
        needs b.k modvar b.j requires l, m impl \"i\" needs b.j choice t end";
    let expected = "1,0\n2,0\n3,0\n3,z\n3,y\n3,x\n3,u\n3,t\n\
        4,0\n4,a,w\n4,a,v\n4,b,w\n4,b,v\n5,0\n6,0\n7,0\n7,m\n7,l\n8,0\n\
        9,0\n9,m\n9,l\n10,0\n10,b,w\n10,b,v\n10,b,k\n10,b,j\n";
    check(text, expected);
}

/// Of the pairs whose members are all listed the lowest number comes next.
#[test]
fn the_order_of_the_parts_list() {
    let text = "spec top provides f, g; std v end spec low provides f; std v; w end
        spec m provides f; n; std v requires g end spec k provides g; std v end
        sys low use m; w = m.n; v = m end sys top use low, k; v = low.w, k end
        parts top.v sysvar top.w = low, k end parts top.w parts low.v parts k.v";
    let expected = "1,0\n2,0\n3,0\n4,0\n5,0\n6,0\n7,0\n7,m,n\n7,low,w\n7,k,v\n7,top,v\n\
        8,0\n9,0\n9,m,v\n9,low,v\n9,k,v\n9,top,w\n10,0\n10,m,v\n10,low,v\n11,0\n11,k,v\n";
    check(text, expected);
}

#[test]
fn written_names_rise_by_their_bytes() {
    let text = "spec a- provides g; std v end spec a provides f; w; std v; W; v- end
        spec B provides g, f; std v end sys B use a-, a; v = a-, a end out";
    let expected = "1,0\n2,0\n3,0\n4,0\n5,0
spec B provides f, g; std v end
spec a provides f; W; std v; v-; w end
spec a- provides g; std v end
sys B use a, a-; v = a.v, a-.v end
";
    check(text, expected);
}

#[test]
fn usable_systems_go_out_first() {
    let text = "spec x provides f; std v end spec zz provides f; std v end
        spec aa provides f; std v end sys zz use x; v = x end
        sys aa use zz, x; v = x end spec ab provides f; std v end sys ab use x; v = x end out";
    let expected = "1,0\n2,0\n3,0\n4,0\n5,0\n6,0\n7,0\n8,0
spec aa provides f; std v end
spec ab provides f; std v end
spec x provides f; std v end
spec zz provides f; std v end
sys ab use x; v = x.v end
sys zz use x; v = x.v end
sys aa use x, zz; v = x.v end
";
    check(text, expected);
}

#[test]
fn modules_and_empty_provides_as_text() {
    let text =
        "spec loop provides ; std p; a requires t end mod loop; p impl \"x\"; a impl \"y\" end out";
    let expected = "1,0\n2,0\n3,0
spec loop provides ; a requires t; std p end
mod loop; a impl \"y\"; p impl \"x\" end
";
    check(text, expected);
}

#[test]
fn a_left_out_version_is_the_standard_one() {
    let text = "spec m provides f; n; std o end spec s provides f; std v end
        sys s use m; v = m end parts s.v sysvar s.w = m.n end parts s.w";
    check(text, "1,0\n2,0\n3,0\n4,0\n4,m,o\n4,s,v\n5,0\n6,0\n6,m,n\n6,s,w\n");
}

#[test]
fn members_that_do_not_fit() {
    let base = "spec m provides f; std v end spec s provides f; std v end\n";
    // Not specified, in no usable list, a version that it has not.
    check(&format!("{base}sys s use m; v = m, x end"), "1,0\n2,0\n3,21\n");
    check(&format!("{base}sys s use m; v = m, x.y end"), "1,0\n2,0\n3,21\n");
    check(&format!("{base}sys s use m; v = m.x end"), "1,0\n2,0\n3,21\n");
    check(&format!("{base}sys s use m; v = s end"), "1,0\n2,0\n3,21\n");
    check(&format!("{base}sys s use m, x; v = m, x end"), "1,0\n2,0\n3,17\n");
    check(&format!("{base}sys s use s; v = x end"), "1,0\n2,0\n3,20\n");
    let empty = "spec e provides ; std v end sys s use e; v = x end";
    check(&format!("{base}{empty}"), "1,0\n2,0\n3,0\n4,19\n");
}

/// A member counts for what only its own parts need.
#[test]
fn b7_counts_own_needs() {
    let text = "spec probe provides temp; std v requires hold end
        spec loop provides hold; std v requires temp end
        spec low provides temp; std v end
        sys low use probe, loop; v = probe, loop end
        spec m provides x; std v end
        spec top provides x; std v end
        sys top use m, low; v = m, low end
        needs top.v";
    check(text, "1,0\n2,0\n3,0\n4,0\n5,0\n6,0\n7,0\n8,0\n8,temp\n8,hold\n");
}

#[test]
fn rules_of_compositions() {
    let base = "spec a provides f; std v end spec b provides f, g; std v end
        spec c provides g; std v requires h end spec d provides h; std v end
        spec s provides f; std v end\n";
    let rows = "1,0\n2,0\n3,0\n4,0\n5,0\n";
    let refused = format!("{rows}6,21\n");
    let accepted = format!("{rows}6,0\n");
    // B6, B7, B8 and B9.
    check(&format!("{base}sys s use a, b; v = a, b end"), &refused);
    check(&format!("{base}sys s use a, c; v = a, c end"), &refused);
    check(&format!("{base}sys s use a, c; v = c end"), &refused);
    check(&format!("{base}sys s use b, d; v = b, d end"), &refused);
    check(&format!("{base}sys s use a, d; v = a end"), &accepted);
    let base = format!("{base}delspec s spec s provides f, g; std v end ");
    let rows = format!("{rows}6,0\n7,0\n");
    check(&format!("{base}sys s use a, c, d; v = a, c end"), &format!("{rows}8,21\n"));
    check(&format!("{base}sys s use a, c, d; v = a, c, d end"), &format!("{rows}8,0\n"));
    check(&format!("{base}sys s use a, c; v = a, c end"), &format!("{rows}8,0\n"));
    check(&format!("{base}sys s use b, d; v = b end"), &format!("{rows}8,0\n"));
    check(&format!("{base}sys s use a, b; v = a end"), &format!("{rows}8,21\n"));
}

#[test]
fn a_listing_longer_than_the_slice() {
    let text = format!("{A}choice end");
    let full = session(text.as_bytes(), 20);
    assert_eq!(full.listing, Ok(b"1,0\n2,0\n2,a,v\n2,a,w\n".to_vec()));
    let short = session(text.as_bytes(), 19);
    assert_eq!(short.listing, Err(22));
    assert_eq!(short.tables, Tables::default());
    assert!(short.book.specifications.is_empty());
}

#[test]
fn the_slice_after_a_session() {
    let mut slice = [7u8; 6];
    assert_eq!(session_on_slice(b"undefined", &mut slice), Ok(4));
    assert_eq!(&slice, b"1,0\n\x07\x07");
    assert_eq!(session_on_slice(b"undefined unused", &mut slice), Err(22));
    assert_eq!(slice, [0; 6]);
    assert_eq!(session_on_slice(b"", &mut []), Ok(0));
}

/// The output of the program on an input.
fn program(arguments: &[&str], input: &[u8]) -> Vec<u8> {
    let child = Command::new(env!("CARGO_BIN_EXE_plain"))
        .args(arguments)
        .stdin(Stdio::piped())
        .stdout(Stdio::piped())
        .spawn();
    let mut child = child.expect("the program starts");
    let mut stdin = child.stdin.take().expect("standard input is piped");
    let input = input.to_vec();
    // The program may stop reading a text that is too long.
    let writer = std::thread::spawn(move || stdin.write_all(&input).is_ok());
    let output = child.wait_with_output().expect("the program ends");
    let _ = writer.join();
    output.stdout
}

#[test]
fn the_program_reads_up_to_65536_bytes() {
    let mut text = b"undefined quit ".to_vec();
    text.resize(65_536, b' ');
    assert_eq!(program(&["session"], &text), b"1,0\n");
    text.push(b' ');
    assert_eq!(program(&["session"], &text), b"0,22\n");
    assert_eq!(program(&["session", "3"], b"undefined"), b"0,22\n");
    assert_eq!(program(&["session", "4"], b"undefined"), b"1,0\n");
}

/// 9,519 rows of commands take 9 * 4 + 90 * 5 + 900 * 6 + 8,520 * 7 bytes,
/// that is 65,526; the row `9519,four` takes the last 10.
#[test]
fn a_listing_of_exactly_65536_bytes() {
    let text = |name: &str| {
        let outs = "out ".repeat(9_517);
        format!("{outs}spec {name} provides ; std v end undefined")
    };
    let listing = program(&["session"], text("four").as_bytes());
    assert_eq!(listing.len(), 65_536);
    assert!(listing.ends_with(b"\n9518,0\n9519,0\n9519,four\n"));
    assert_eq!(program(&["session"], text("fives").as_bytes()), b"0,22\n");
}
