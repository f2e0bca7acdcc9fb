//! Allocation failures.
use format_json_values::value::{parse_value, read_value};
use test_json_support::refused::{TEXT, each_refused, read, read_whole};

#[test]
fn parse_value_refused_memory(rt: HostRuntime) {
    each_refused(&rt, "parse_value", rt.alloc(), |heap| read_whole(parse_value(heap, 3, TEXT)));
}

#[test]
fn read_value_refused_memory(rt: HostRuntime) {
    each_refused(&rt, "read_value", rt.alloc(), |heap| {
        let mut input = TEXT;
        let answer = read_value(heap, 3, &mut input);
        read::<&str, _, _>(answer, input.len())
    });
}
