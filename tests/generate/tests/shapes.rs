//! The graphs of a known shape are what their names say.

use generate::{codes, examples, kinds, shapes};
use independent::{check, check_code, compile, operations, words};

#[test]
fn sums() {
    let typical = shapes::typical().to_bytes();
    assert_eq!(check(&typical), Ok(8));
    assert_eq!(operations(&typical, 8), Ok(320));
    let largest = shapes::largest().to_bytes();
    assert!(largest.len() <= 65_535);
    assert_eq!(check(&largest), Ok(16));
    assert_eq!(operations(&largest, 16), Ok(4096));
    assert!(words(&largest, 16).unwrap() <= 8192);
    let fullest = shapes::fullest().to_bytes();
    assert_eq!(check(&fullest), Ok(2));
    assert_eq!(operations(&fullest, 2), Ok(4096));
    assert_eq!(words(&fullest, 2), Ok(8192));
    let chains = shapes::chains().to_bytes();
    assert_eq!(operations(&chains, 16), Ok(4096));
    let tree = shapes::tree().to_bytes();
    assert_eq!(operations(&tree, 11), Ok(3070));
    let levels = shapes::levels().to_bytes();
    assert_eq!(operations(&levels, 16), Ok(384));
    assert_eq!(check(&shapes::most_calls().to_bytes()), Ok(16));
    assert_eq!(words(&shapes::empty_calls().to_bytes(), 16), Ok(1));
    for count in [4, 8, 16] {
        let powers = shapes::operation_powers(count).to_bytes();
        let power = 16u128.pow(count.into()).min(u64::MAX.into());
        assert_eq!(operations(&powers, count), Ok(power as u64));
        assert_eq!(operations(&powers, 3), Ok(4095));
    }
    let powers = shapes::word_powers().to_bytes();
    assert_eq!(words(&powers, 3), Ok(4096));
    assert_eq!(words(&powers, 8), Ok(1 << 32));
    let longest = shapes::longest().to_bytes();
    assert_eq!((longest.len(), check(&longest)), (65_535, Ok(2)));
    let refused = check(&shapes::loop_at_end().to_bytes()).unwrap_err();
    assert_eq!(refused.number, 13);
}

#[test]
fn all_kinds() {
    assert_eq!(kinds::all().len(), 10 * 3 + 13);
    for (kind, ty) in kinds::all() {
        assert_eq!(
            check(&shapes::kind_on_quotients(kind, ty).to_bytes()),
            Ok(1)
        );
    }
    for shape in [shapes::largest(), shapes::typical()] {
        let nodes = || shape.functions.iter().flat_map(|f| &f.nodes);
        for kind in 1..=24 {
            assert!(nodes().any(|node| node.kind == kind), "kind {kind}");
        }
    }
}

#[test]
fn lists_at_the_limits() {
    assert!(check_code(&codes::wrapping_words()).is_err());
    assert!(check_code(&codes::additions(4096)).is_ok());
    assert!(check_code(&codes::additions(4097)).is_err());
}

#[test]
fn example_files() {
    let folder = std::path::Path::new(env!("CARGO_MANIFEST_DIR")).join("../../examples");
    let readme = std::fs::read_to_string(folder.join("README.md")).unwrap();
    for (name, table) in examples() {
        assert_eq!(std::fs::read(folder.join(name)).unwrap(), table, "{name}");
        let listing = String::from_utf8(independent::listing(&table)).unwrap();
        for line in listing.lines() {
            assert!(readme.contains(line), "{name}: {line}");
        }
    }
    let exchanger = generate::heat_exchanger::graph().to_bytes();
    assert!(compile(&exchanger, 6, 100_000).is_ok());
}
