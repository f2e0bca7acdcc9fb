//! Documents, and what their lines say.
use crate::shown::show;
use std::alloc::Global;
use std::process::Abort;
use format_toml::lines::parse_lines;
use format_toml::value::Document;
use format_toml::values::read_value;
use format_toml_tree::value::Value;
use winnow::error::ParseFault;

/// A maximum nesting depth, a document of toml.io/en/v1.0.0 or a similar one, and its lines as
/// text, in order: `'` around each string, a comma after each value of an array, a bar after each
/// line.
const ROWS: &[(usize, &str, &str)] = &[
    // Comment
    (
        0,
        "# This is a full-line comment\nkey = \"value\"  # This is a comment at the end of a line\n\
         another = \"# This is not a comment\"",
        "key='value'|another='# This is not a comment'|",
    ),
    // Key/Value Pair
    (0, "key = \"value\"", "key='value'|"),
    // Keys
    (
        0,
        "key = \"value\"\nbare_key = \"value\"\nbare-key = \"value\"\n1234 = \"value\"",
        "key='value'|bare_key='value'|bare-key='value'|1234='value'|",
    ),
    (0, "- = 1\n_=2\nZz9-\t=\t3", "-=1|_=2|Zz9-=3|"),
    (
        0,
        "\"127.0.0.1\" = \"value\"\n\"character encoding\" = \"value\"\n\"\u{28e}\u{1dd}\u{29e}\" = \"value\"\n\
         'key2' = \"value\"\n'quoted \"value\"' = \"value\"",
        "127.0.0.1='value'|character encoding='value'|\u{28e}\u{1dd}\u{29e}='value'|key2='value'|\
         quoted \"value\"='value'|",
    ),
    (0, "\"\" = \"blank\"\n'' = 'blank'\n\"\\t\" = 1", "='blank'|='blank'|\t=1|"),
    (
        0,
        "name = \"Orange\"\nphysical.color = \"orange\"\nsite.\"google.com\" = true",
        "name='Orange'|physical;color='orange'|site;google.com=true|",
    ),
    (
        0,
        "fruit.name = 1\nfruit. color = 2\nfruit . flavor\t= 3\n3.14159 = \"pi\"",
        "fruit;name=1|fruit;color=2|fruit;flavor=3|3;14159='pi'|",
    ),
    // String
    (
        0,
        "winpath  = 'C:\\Users\\nodejs'\nwinpath2 = '\\\\ServerX\\admin$\\system32\\'\n\
         quoted   = 'Tom \"Dubs\" Preston-Werner'\nregex    = '<\\i\\c*\\s*>'",
        "winpath='C:\\Users\\nodejs'|winpath2='\\\\ServerX\\admin$\\system32\\'|\
         quoted='Tom \"Dubs\" Preston-Werner'|regex='<\\i\\c*\\s*>'|",
    ),
    (0, "a = \"\"\nb = ''\nc = \"'\t\u{e9}\u{20ac}\u{1d11e}\"", "a=''|b=''|c=''\t\u{e9}\u{20ac}\u{1d11e}'|"),
    (
        0,
        "a = \"\\b\\t\\n\\f\\r\\\"\\\\\"\nb = \"\\\"You can quote me\\\".\"",
        "a='\u{8}\t\n\u{c}\r\"\\'|b='\"You can quote me\".'|",
    ),
    (
        0,
        "str = \"I'm a string. \\\"You can quote me\\\". Name\\tJos\\u00E9\\nLocation\\tSF.\"",
        "str='I'm a string. \"You can quote me\". Name\tJos\u{e9}\nLocation\tSF.'|",
    ),
    (
        0,
        "a = \"\\u0041\\u00e9\\uD7FF\\ue000\\uFFFF\\u0000\"\nb = \"\\U0001d11E\\U0010FFFF\\U00000041\"\n\"\\u00e9\" = 1",
        "a='A\u{e9}\u{d7ff}\u{e000}\u{ffff}\0'|b='\u{1d11e}\u{10ffff}A'|\u{e9}=1|",
    ),
    // Integer
    (0, "int1 = +99\nint2 = 42\nint3 = 0\nint4 = -17", "int1=99|int2=42|int3=0|int4=-17|"),
    (
        0,
        "a = 9223372036854775807\nb = -9223372036854775808",
        "a=9223372036854775807|b=-9223372036854775808|",
    ),
    (
        0,
        "int5 = 1_000\nint6 = 5_349_221\nint7 = 53_49_221\nint8 = 1_2_3_4_5",
        "int5=1000|int6=5349221|int7=5349221|int8=12345|",
    ),
    (
        0,
        "hex1 = 0xDEADBEEF\nhex2 = 0xdeadbeef\nhex3 = 0xdead_beef\noct1 = 0o01234567\noct2 = 0o755\n\
         bin1 = 0b11010110",
        "hex1=3735928559|hex2=3735928559|hex3=3735928559|oct1=342391|oct2=493|bin1=214|",
    ),
    (0, "a = +0\nb = -0\nc = 0x0\nd = 0b0_0\ne = -1_0", "a=0|b=0|c=0|d=0|e=-10|"),
    (
        0,
        "a = +9_223_372_036_854_775_807\nb = -9_223_372_036_854_775_808\nc = 0x7fff_ffff_ffff_ffff",
        "a=9223372036854775807|b=-9223372036854775808|c=9223372036854775807|",
    ),
    (
        0,
        "a = 0o777777777777777777777\nb = 0x0000000000000000000000001F",
        "a=9223372036854775807|b=31|",
    ),
    (1, "a = [0x1,1_0,+2]\nb = {c = 0b1,d=0o7}", "a=[1,10,2,]|b={c=1,d=7,}|"),
    // Boolean
    (0, "bool1 = true\nbool2 = false", "bool1=true|bool2=false|"),
    // Array
    (1, "integers = [ 1, 2, 3 ]", "integers=[1,2,3,]|"),
    (1, "colors = [ \"red\", \"yellow\", \"green\" ]", "colors=['red','yellow','green',]|"),
    (2, "nested_arrays_of_ints = [ [ 1, 2 ], [3, 4, 5] ]", "nested_arrays_of_ints=[[1,2,],[3,4,5,],]|"),
    (
        2,
        "nested_mixed_array = [ [ 1, 2 ], [\"a\", \"b\", \"c\"] ]",
        "nested_mixed_array=[[1,2,],['a','b','c',],]|",
    ),
    (1, "a = []\nb = [\t]\nc=[true,'x' , -1]", "a=[]|b=[]|c=[true,'x',-1,]|"),
    (
        1,
        "integers2 = [\n  1, 2, 3\n]\nintegers3 = [\n  1,\n  2, # this is ok\n]",
        "integers2=[1,2,3,]|integers3=[1,2,]|",
    ),
    (
        1,
        "a = [ # one\r\n\r\n\t# two\n 1 # three\n , # four\n 2 ,\n# five\n ] # six\nb = [\n]\nc = [ 1 , ]",
        "a=[1,2,]|b=[]|c=[1,]|",
    ),
    (
        2,
        "contributors = [\n  \"Foo Bar <foo@example.com>\",\n\
         \u{20} { name = \"Baz Qux\", email = \"bazqux@example.com\", url = \"https://example.com/bazqux\" }\n]",
        "contributors=['Foo Bar <foo@example.com>',{name='Baz Qux',email='bazqux@example.com',\
         url='https://example.com/bazqux',},]|",
    ),
    // Inline Table
    (
        1,
        "name = { first = \"Tom\", last = \"Preston-Werner\" }\npoint = { x = 1, y = 2 }\n\
         animal = { type.name = \"pug\" }\na = {}\nb={ }\nc={d=1}",
        "name={first='Tom',last='Preston-Werner',}|point={x=1,y=2,}|animal={type;name='pug',}|a={}|b={}|c={d=1,}|",
    ),
    (
        2,
        "points = [ { x = 1, y = 2, z = 3 },\n           { x = 7, y = 8, z = 9 },\n           { x = 2, y = 4, z = 8 } ]",
        "points=[{x=1,y=2,z=3,},{x=7,y=8,z=9,},{x=2,y=4,z=8,},]|",
    ),
    (2, "a = { b = [\n1,\n] , c = {d=2} }", "a={b=[1,],c={d=2,},}|"),
    // Table
    (0, "[table]", "[table]|"),
    (
        0,
        "[dog.\"tater.man\"]\ntype.name = \"pug\"\n[a.b.c]\n[ d.e.f ]\n[ g .  h  . i ]\n[ j . \"\u{29e}\" . 'l' ]",
        "[dog;tater.man]|type;name='pug'|[a;b;c]|[d;e;f]|[g;h;i]|[j;\u{29e};l]|",
    ),
    // Array of Tables
    (
        0,
        "[[products]]\nname = \"Hammer\"\n\n[[products]]  # empty table within the array\n\n[[ fruits . varieties ]]",
        "[[products]]|name='Hammer'|[[products]]|[[fruits;varieties]]|",
    ),
    (
        0,
        "[table-1]\nkey1 = \"some string\"\nkey2 = 123\n\n[table-2]\nkey1 = \"another string\"\n\
         key2 = 456",
        "[table-1]|key1='some string'|key2=123|[table-2]|key1='another string'|key2=456|",
    ),
    (0, "[ g ]\n\t[\th_1\t]\t# one\n", "[g]|[h_1]|"),
    // Lines
    (0, "", ""),
    (0, "\n", ""),
    (0, " \t", ""),
    (0, "\r\n", ""),
    (0, "a=1\r\n\r\n  # \u{e9}\t~\r\n  b = 2 \t", "a=1|b=2|"),
    (0, "#", ""),
];

/// An invalid document, and the number of bytes before the item or the line ending that is not
/// read. The documents marked INVALID are from the standard.
const NONE: &[(&str, usize)] = &[
    ("key = # INVALID", 0),
    ("first = \"Tom\" last = \"Preston-Werner\" # INVALID", 14),
    ("= \"no key name\"  # INVALID", 0),
    ("a = 1\n = 2", 7),
    ("a", 0),
    ("a 1", 0),
    ("a = 1 b = 2", 6),
    ("a = 1\n[b] c = 2", 10),
    ("a = 01", 0),
    ("a = -", 0),
    ("a = 9223372036854775808", 0),
    ("a = -9223372036854775809", 0),
    ("a = 99999999999999999999", 0),
    ("a = 18446744073709551616", 0),
    ("a = 0x8000000000000000", 0),
    ("a = 0x10000000000000000", 0),
    ("a = 0b1000000000000000000000000000000000000000000000000000000000000000", 0),
    ("a = _1", 0),
    ("a = 1_", 0),
    ("a = 1__2", 0),
    ("a = 0_1", 0),
    ("a = -01", 0),
    ("a = +01", 0),
    ("a = 00", 0),
    ("a = +-1", 0),
    ("a = --1", 0),
    ("a = + 1", 0),
    ("a = +_1", 0),
    ("a = +", 0),
    ("a = +0x1", 0),
    ("a = -0b1", 0),
    ("a = -0o7", 0),
    ("a = 0x", 0),
    ("a = 0x_1", 0),
    ("a = 0x1_", 0),
    ("a = 0x1__0", 0),
    ("a = 0_x1", 0),
    ("a = 0X1", 0),
    ("a = 0O7", 0),
    ("a = 0B1", 0),
    ("a = 0o8", 0),
    ("a = 0b2", 0),
    ("a = 0xg", 0),
    ("a = 00x1", 0),
    ("a = 1a", 0),
    ("a = 1 2", 6),
    ("a = \u{ff11}", 0),
    ("a = 1\nb = True", 6),
    ("a = truefalse", 8),
    ("a = \"x", 0),
    ("a = 'x\n'", 0),
    ("a = 'it''s'", 8),
    ("a = \"\u{7f}\"", 0),
    ("a = \"\u{1}\"", 0),
    ("a = \"\\/\"", 0),
    ("a = \"\\x\"", 0),
    ("a = \"\\\"", 0),
    ("# \u{7f}", 2),
    ("# a\rb", 3),
    ("a = 1\rb = 2", 5),
    ("a = [1", 0),
    ("a = [1 2]", 0),
    ("a = [,1]", 0),
    ("a = [[[1]]]", 0),
    ("[", 0),
    ("[]", 0),
    ("[a", 0),
    ("[a b]", 0),
    ("[a]]", 3),
    ("\u{feff}a = 1", 0),
    ("\u{e9} = 1", 0),
    // Escapes of Unicode.
    ("a = \"\\u004\"", 0),
    ("a = \"\\u004g\"", 0),
    ("a = \"\\uD834\"", 0),
    ("a = \"\\udfff\"", 0),
    ("a = \"\\U0001d11\"", 0),
    ("a = \"\\U0000d800\"", 0),
    ("a = \"\\U00110000\"", 0),
    ("a = \"\\Uffffffff\"", 0),
    ("\"\\u{41}\" = 1", 0),
    // Keys, arrays, inline tables and headers.
    ("a..b = 1", 0),
    (".a = 1", 0),
    ("a. = 1", 0),
    ("a\n.b = 1", 0),
    ("a b = 1", 0),
    ("\"a = 1", 0),
    ("'a\n' = 1", 0),
    ("a = [1,,2]", 0),
    ("a = [,]", 0),
    ("a = [\n,]", 0),
    ("a = [1 # b ]", 0),
    ("a = [1\r]", 0),
    ("a = {b = 1,}", 0),
    ("a = {,}", 0),
    ("a = {b = 1\n}", 0),
    ("a = {b = 1 c = 2}", 0),
    ("a = {b}", 0),
    ("a = {b = 1 # c}", 0),
    ("a = {b = 1", 0),
    ("[[a]", 0),
    ("[a].b", 3),
    ("[ [a]]", 0),
    ("[[a] ]", 0),
    ("[[]]", 0),
    ("[a.]", 0),
    ("[a\n]", 0),
    ("[a] [b]", 4),
];

fn same(rt: &impl Abort, row: &str, got: &str, want: &str) {
    assert_eq!(rt; got, want, "{row:?}");
}

/// Whether the lines are shown as a row has them.
fn same_lines(rt: &impl Abort, row: &str, alloc: Global, lines: &Document<Global>, want: &str) {
    let mut into = String::new(alloc);
    for line in lines {
        assert!(rt; show(line, &mut into).is_ok());
    }
    same(rt, row, into.as_str(), want);
}

#[test]
fn parse_lines_of_the_standard(rt: HostRuntime) {
    for (level, text, want) in ROWS {
        match parse_lines(rt.alloc(), *level, text) {
            Ok(lines) => same_lines(&rt, text, rt.alloc(), &lines, want),
            Err(_) => same(&rt, text, "", want),
        }
    }
}

#[test]
fn parse_lines_refuses(rt: HostRuntime) {
    for (text, place) in NONE {
        match parse_lines(rt.alloc(), 2, text) {
            Err(ParseFault::Invalid(error)) => assert_eq!(rt; error.offset(), *place, "{text:?}"),
            _ => assert!(rt; false, "{text:?}"),
        }
    }
}

#[test]
fn parse_lines_by_level(rt: HostRuntime) {
    let text = "a = [[1], []]";
    assert!(rt; parse_lines(rt.alloc(), 0, text).is_err());
    assert!(rt; parse_lines(rt.alloc(), 1, text).is_err());
    assert!(rt; parse_lines(rt.alloc(), 2, text).is_ok());
}

#[test]
fn read_value_leaves_what_is_behind(rt: HostRuntime) {
    let mut input = "[ 1 , 'b' ] # c";
    let value = read_value(rt.alloc(), 1, &mut input);
    assert!(rt; matches!(value, Ok(Value::Array(items)) if items.len() == 2));
    assert_eq!(rt; input, " # c");
    let mut input = "12_3,4";
    assert!(rt; matches!(read_value(rt.alloc(), 0, &mut input), Ok(Value::Integer(123))));
    assert_eq!(rt; input, ",4");
    assert!(rt; read_value(rt.alloc(), 0, &mut "[]").is_err());
}
