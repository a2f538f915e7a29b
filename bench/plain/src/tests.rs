//! The small censuses that the rules work by hand, known totals, and codes put and taken.
use crate::cap::Cap;
use crate::census::Census;
use crate::oracle::Coded;
use crate::polygon::Polygon;
use crate::refusal::Refusal;
use crate::regions::{Map, Regions};

fn printed(sheet: &str) -> String {
    let mut out = Vec::new();
    crate::run(sheet.as_bytes(), &mut out).unwrap();
    String::from_utf8(out).unwrap()
}

/// The codes of all objects, as the numbers of the bits that are set, and the last line.
fn listed(sheet: &str) -> (Vec<Vec<usize>>, String) {
    let text = printed(sheet);
    let mut lines: Vec<&str> = text.lines().collect();
    let last = lines.pop().unwrap().to_string();
    let bits = |line: &str| {
        let code = line.split(' ').nth(1).unwrap();
        let byte = |k: usize| u8::from_str_radix(&code[2 * k..2 * k + 2], 16).unwrap();
        let has = |e: &usize| byte(e / 8) >> (e % 8) & 1 == 1;
        (0..4 * code.len()).filter(has).collect()
    };
    (lines.into_iter().map(bits).collect(), last)
}

fn last_line(sheet: &str) -> String {
    listed(sheet).1
}

fn map(n: u32, pairs: &[(u32, u32)]) -> Regions {
    let mut map = Map::new(n).unwrap();
    for &(a, b) in pairs {
        map.add(a, b).unwrap();
    }
    Regions::new(map)
}

#[test]
fn regions_by_hand() {
    assert_eq!(
        printed("R 1\n. 100\n"),
        "0 0000000000000000\n1 0100000000000000\nwhole 2 steps 4\n"
    );
    let (sets, last) = listed("R 3\n- 0 1\n- 1 2\n. 100\n");
    let path: [&[usize]; 7] = [&[], &[0], &[1], &[0, 1], &[2], &[1, 2], &[0, 1, 2]];
    assert_eq!(sets, path);
    assert_eq!(last, "whole 7 steps 39");
    let (sets, last) = listed("R 3\n- 0 1\n- 1 2\nC 1\n. 100\n");
    let capped: [&[usize]; 4] = [&[], &[0], &[1], &[2]];
    assert_eq!(sets, capped);
    assert_eq!(last, "whole 4 steps 18");
}

#[test]
fn polygons_by_hand() {
    assert_eq!(
        listed("P 3\n. 9\n"),
        (vec![vec![]], "whole 1 steps 3".into())
    );
    let (sets, last) = listed("P 4\n. 9\n");
    assert_eq!(sets, [[1], [4]]);
    assert_eq!(last, "whole 2 steps 14");
    let (sets, last) = listed("P 5\n. 9\n");
    assert_eq!(sets, [[1, 3], [3, 4], [4, 7], [1, 8], [7, 8]]);
    assert_eq!(last, "whole 5 steps 60");
}

#[test]
fn the_most() {
    assert_eq!(printed("P 5\n. 0\n"), "open 0 steps 0\n");
    assert_eq!(last_line("R 1\n. 1\n"), "open 1 steps 1");
    assert_eq!(last_line("R 1\n. 2\n"), "whole 2 steps 4");
}

#[test]
fn faults() {
    for (sheet, fault) in [
        ("", "fault 14 line 1 layer 2"),
        ("R 65\n. 1\n", "fault 12 line 1 layer 3"),
        ("P 2\n. 1\n", "fault 12 line 1 layer 3"),
        ("P 25\n. 1\n", "fault 12 line 1 layer 3"),
        ("R 07\n. 1\n", "fault 10 line 1 layer 1"),
        ("R 3\n\n. 1\n", "fault 9 line 2 layer 1"),
        ("R 3\n- 1 1\n. 1\n", "fault 13 line 2 layer 3"),
        ("P 5\n- 1 5\n. 1\n", "fault 12 line 2 layer 3"),
        ("P 5\n- 1 1\n. 1\n", "fault 13 line 2 layer 3"),
        ("R 3\nC 1\n- 0 1\n. 1\n", "fault 11 line 3 layer 2"),
        ("R 3\nC 1", "fault 14 line 2 layer 2"),
        ("R 3\n. 1\nx", "fault 11 line 3 layer 2"),
        (&"x".repeat(65_537), "fault 15 line 0 layer 1"),
    ] {
        assert_eq!(printed(sheet), format!("{fault}\n"), "{sheet:?}");
    }
}

#[test]
fn totals() {
    let totals = [1, 2, 5, 14, 42, 132, 429, 1430, 4862, 16796];
    for (n, total) in (3..).zip(totals) {
        let width = n * (n - 1) / 2;
        let steps = total * (width + n - 3);
        assert_eq!(
            last_line(&format!("P {n}\n. 1000000\n")),
            format!("whole {total} steps {steps}")
        );
    }
}

/// Every code of the list is taken, and a row one bit away from it is taken only if it is listed.
fn codes_hold<O: Coded>(make: impl Fn() -> O) {
    let mut census = Census::new(make());
    let mut codes = Vec::new();
    while census.rank().is_some() {
        let mut code = vec![0; census.size()];
        census.read(&mut code).unwrap();
        codes.push(code);
        census.next().unwrap();
    }
    assert_eq!(census.next(), Err(Refusal::PastEnd));
    assert_eq!(census.tally().objects, codes.len() as u64);
    let mut oracle = make();
    let mut held = vec![0; oracle.size()];
    for code in &codes {
        assert_eq!(oracle.take(code), Ok(()));
        oracle.put(&mut held).unwrap();
        assert_eq!(&held, code);
        for bit in 0..8 * code.len() {
            let mut near = code.clone();
            near[bit / 8] ^= 1 << (bit % 8);
            let taken = oracle.take(&near).is_ok();
            assert_eq!(taken, codes.contains(&near));
            oracle.put(&mut held).unwrap();
            assert_eq!(&held, if taken { &near } else { code });
            oracle.take(code).unwrap();
        }
    }
    assert_eq!(oracle.take(&held[1..]), Err(Refusal::NotACode));
    assert_eq!(oracle.put(&mut held[1..]), Err(Refusal::BufferShort));
    assert_eq!(oracle.step(oracle.width()), Err(Refusal::SlotRange));
}

#[test]
fn codes() {
    let pairs = [(0, 1), (1, 2), (2, 3), (3, 0), (3, 4), (4, 5), (1, 5)];
    codes_hold(|| map(6, &pairs));
    codes_hold(|| Cap::new(map(6, &pairs), 3));
    codes_hold(|| Polygon::new(7).unwrap());
    codes_hold(|| Cap::new(Cap::new(Polygon::new(7).unwrap(), 2), 3));
}
