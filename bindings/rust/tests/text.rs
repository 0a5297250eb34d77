//! Kinds, subsets and rights planes as text.

use durpaxeta::*;
use std::collections::HashSet;

fn kinds() -> Vec<Kind> {
    let mut kinds = Vec::new();
    for depth in [0, 1, 4] {
        for order in [Order::Little, Order::Big] {
            kinds.extend([1, 2, 64].map(|size| Kind::fixed(depth, size, order)));
        }
        for place in [Place::Start, Place::End] {
            kinds.extend([Width::Four, Width::Eight].map(|width| Kind::ragged(depth, width, place)));
        }
    }
    let packed: Vec<Kind> = kinds.iter().map(|kind| kind.packed()).collect();
    kinds.extend(packed);
    kinds
}

#[test]
fn kinds_come_back() {
    let kinds = kinds();
    for kind in &kinds {
        assert_eq!(kind.to_string().parse(), Ok(*kind));
    }
    // All are different, as values and as words.
    assert_eq!(kinds.iter().collect::<HashSet<_>>().len(), kinds.len());
    assert_eq!(kinds.iter().map(Kind::to_string).collect::<HashSet<_>>().len(), kinds.len());
}

#[test]
fn kinds_in_other_words() {
    let ragged = Kind::ragged(1, Width::Four, Place::Start);
    assert_eq!("depth 1, ragged, width 4, index at start".parse(), Ok(ragged));
    assert_eq!(" Index at START,RAGGED , width 4 bytes,depth 1".parse(), Ok(ragged));
    let fixed = Kind::fixed(0, 2, Order::Big);
    for text in
        ["depth 0, fixed, size 2, big order", "depth 0,fixed,size 2 bytes,big-endian", "big,size 2,fixed,depth 0"]
    {
        assert_eq!(text.parse(), Ok(fixed), "{text}");
    }
    let packed = "depth 1, packed masks, ragged, width 4, index at start";
    assert_eq!(ragged.packed().to_string(), packed);
    for text in [packed, "depth 1,ragged,width 4,index at start,Packed  Masks"] {
        assert_eq!(text.parse(), Ok(ragged.packed()), "{text}");
    }
    // Left to the calls.
    let large: Kind = "depth 99999999999999999999, fixed, size 65, little".parse().unwrap();
    assert_eq!(large, Kind::fixed(u64::MAX, 65, Order::Little));
}

#[test]
fn words_that_are_no_kind() {
    for (text, what) in [
        ("", "has \"\", which says nothing here"),
        ("depth 1", "says neither fixed nor ragged"),
        ("ragged, width 4, index at start", "does not say the depth"),
        ("depth 1, ragged, width 4", "is ragged and does not say \"index at start\" or \"index at end\""),
        ("depth 1, ragged, index at start", "is ragged and does not say the width of its index"),
        (
            "depth 1, ragged, width 4, index at start, size 2",
            "is ragged and has a size or an order; only fixed kinds have them",
        ),
        ("depth 1, fixed, size 2", "is fixed and does not say little order or big order"),
        ("depth 1, fixed, little", "is fixed and does not say the size of a cell"),
        ("depth 1, fixed, size 2, little, big", "says twice what \"big\" says"),
        ("depth 1, fixed, size 2, little, index at end", "is fixed and has an index; only ragged kinds have one"),
        ("depth one, fixed, size 2, little", "has no number in \"depth one\""),
        ("depth -1, fixed, size 2, little", "has no number in \"depth -1\""),
        ("depth 1, depth 1, fixed, size 2, little", "says twice what \"depth 1\" says"),
        ("depth 1, fixed, ragged, size 2, little", "says twice what \"ragged\" says"),
        ("depth 1, fixed, size 2, little, quickly", "has \"quickly\", which says nothing here"),
        ("depth 1, packed masks, fixed, size 2, little, packed masks", "says twice what \"packed masks\" says"),
        ("depth 1, packed, fixed, size 2, little", "has \"packed\", which says nothing here"),
        ("packed masks", "does not say the depth"),
        ("depth 1, fixed, size 2, little,", "has \"\", which says nothing here"),
    ] {
        let said = match text.parse::<Kind>() {
            Err(TextError::Words(said)) => said,
            other => panic!("{text}: {other:?}"),
        };
        assert!(said.starts_with(&format!("the kind \"{text}\" {what}; write for example ")), "{said}");
    }
}

#[test]
fn widths_are_refused() {
    for width in ["5", "0", "99999999999999999999"] {
        let text = format!("depth 1, ragged, width {width}, index at start");
        let error = text.parse::<Kind>().unwrap_err();
        let detail = format!("The kind is {text}");
        assert_eq!(error.to_string(), format!("{detail}: {}", Refusal::Kind));
        assert_eq!(error, TextError::Refused { refusal: Refusal::Kind, detail });
    }
    // Words come first.
    assert!(matches!("depth 1, ragged, width 5".parse::<Kind>(), Err(TextError::Words(_))));
}

#[test]
fn subsets() {
    let middle = Subset::from_numbers(vec![0, 1, 2, 2]);
    assert_eq!(middle.to_string(), "0..2,1..3");
    for text in ["0..2,1..3", " 0 .. 2 , 1 .. 3 "] {
        assert_eq!(text.parse(), Ok(middle.clone()), "{text}");
    }
    assert_eq!("5..5".parse(), Ok(Subset::from_numbers(vec![5, 0])));
    for text in ["", "0", "0-2", "0..", "..2", "0..2,", "0..2;1..3", "0...2", "a..b", "-1..2"] {
        let said = format!("\"{text}\" is no subset; write one range for each side, for example 0..2,1..3");
        assert_eq!(text.parse::<Subset>(), Err(TextError::Words(said)));
    }
    let error = "0..1,2..1".parse::<Subset>().unwrap_err();
    assert!(matches!(error, TextError::Refused { refusal: Refusal::Subset, .. }));
    assert_eq!(HashSet::from([middle.clone(), middle]).len(), 1);
}

#[test]
fn rights_planes() {
    let plane = Rights::new(&[true, false, false, true]);
    assert_eq!(plane.to_string(), "1,0,0,1");
    for text in ["1,0,0,1", "1 0 0 1", " 1 0,0 1 ", "1, 0 , 0,1", "1,0\n0,1", "1,0,\t0\t1"] {
        assert_eq!(text.parse(), Ok(plane.clone()), "{text:?}");
    }
    let none = Rights::new(&[]);
    assert_eq!((none.to_string().parse(), " ".parse()), (Ok(none.clone()), Ok(none)));
    for (text, what) in [
        ("1,x", "has 'x', which says nothing here"),
        ("-1", "has '-', which says nothing here"),
        ("1;0", "has ';', which says nothing here"),
        ("1\u{202E}0", "has '\\u{202e}', which says nothing here"),
        ("\u{661}", "has '\u{661}', which says nothing here"),
        ("1,,0", "has nothing beside a comma"),
        ("1,0,", "has nothing beside a comma"),
        (" , ", "has nothing beside a comma"),
        ("2,x", "has 'x', which says nothing here"),
    ] {
        let said = format!(
            "the rights plane {what}; write 1 for each cell that is shown and 0 for each other one, for example 1,0,1"
        );
        assert_eq!(text.parse::<Rights>(), Err(TextError::Words(said)), "{text:?}");
    }
    for (text, readings) in [
        ("00 01", "0,0,0,1 (4 cells), or 0,1 (2 cells, a byte each)"),
        ("1,0100", "1,0,1,0,0 (5 cells), or 1,1,0 (3 cells, a byte each)"),
        ("01", "0,1 (2 cells), or 1 (1 cell, a byte each)"),
        ("1001", "1,0,0,1 (4 cells)"),
        ("001", "0,0,1 (3 cells)"),
    ] {
        let said = format!("the rights plane has digits with nothing between; write {readings}");
        assert_eq!(text.parse::<Rights>(), Err(TextError::Words(said)), "{text:?}");
    }
    for (text, digit) in [("2", 2), ("1,0,9", 9), ("0123", 2)] {
        let detail = format!("The rights plane has {digit}, which is neither 0 nor 1");
        assert_eq!(text.parse::<Rights>(), Err(TextError::Refused { refusal: Refusal::Content, detail }));
    }
}
