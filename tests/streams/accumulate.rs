//! Accumulators.
use std::alloc::Global;
use std::collections::BTreeMap;
use std::test::Fail;
use stream_sets::accumulate::Accumulate;

/// A number counts, and stays at the greatest one.
#[test]
fn accumulate_into_a_number(rt: HostRuntime) -> Result<(), Fail> {
    let mut count: usize = Accumulate::<char, Global>::initial(rt.alloc(), None)?;
    assert_eq!(rt; count, 0);
    Accumulate::<char, Global>::accumulate(&mut count, 'a')?;
    assert_eq!(rt; count, 1);
    let mut count = usize::MAX - 1;
    for _ in 0..3 {
        Accumulate::<char, Global>::accumulate(&mut count, 'a')?;
        assert_eq!(rt; count, usize::MAX);
    }
    Ok(())
}

/// A capacity is only a hint, even `usize::MAX`.
#[test]
fn accumulate_from_any_capacity(rt: HostRuntime) -> Result<(), Fail> {
    for capacity in [None, Some(0), Some(1), Some(usize::MAX)] {
        let mut list: Vec<char> = Accumulate::<char, Global>::initial(rt.alloc(), capacity)?;
        list.accumulate('a')?;
        list.accumulate(['b', 'c'].as_slice())?;
        assert_eq!(rt; list.as_slice(), ['a', 'b', 'c'].as_slice());
        let mut text: String = Accumulate::<char, Global>::initial(rt.alloc(), capacity)?;
        text.accumulate('é')?;
        text.accumulate("ab")?;
        assert_eq!(rt; text.as_str(), "éab");
        let mut map: BTreeMap<char, u8> = Accumulate::initial(rt.alloc(), capacity)?;
        map.accumulate(('a', 1))?;
        map.accumulate(('a', 2))?;
        assert_eq!(rt; (map.len(), map.get(&'a').copied()), (1, Some(2)));
        let () = Accumulate::<char, Global>::initial(rt.alloc(), capacity)?;
    }
    Ok(())
}
