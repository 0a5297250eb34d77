//! The pictures of docs/FORMAT.md are what the library writes.

use durpaxeta::*;

const PAGE: &str = include_str!("../../../docs/FORMAT.md");

/// The affinity table of part 5, and of part 16 the planes of its two guests, and of its first host.
const AFFINITY: [Cell<'_>; 4] =
    [Cell::Value(b"0-3,8"), Cell::Value(b""), Cell::Null { level: 1 }, Cell::Null { level: 2 }];
const GUESTS: [[bool; 4]; 2] = [[true, false, true, false], [false, true, false, true]];
const HOST: [bool; 4] = [true, true, false, false];

/// A part of the page.
fn part(number: &str) -> &'static str {
    let begin = format!("{number}. ");
    PAGE.split("\n## ").find(|part| part.starts_with(&begin)).unwrap_or_else(|| panic!("no part {number}"))
}

/// The bytes of each picture behind such a fence; positions must run on.
fn pictures(text: &str, fence: &str) -> Vec<Vec<u8>> {
    let mut pictures = Vec::new();
    for block in text.split(&format!("```{fence}\n")).skip(1) {
        let (block, _) = block.split_once("```").expect("a picture ends");
        let mut bytes = Vec::new();
        for line in block.lines() {
            let mut parts = line.split('|').map(str::trim);
            let at: usize =
                parts.next().and_then(|at| at.parse().ok()).unwrap_or_else(|| panic!("no position: {line}"));
            assert_eq!(at, bytes.len(), "{line}");
            let hex = parts.next().unwrap_or_else(|| panic!("no bytes: {line}"));
            bytes.extend(hex.split(' ').map(|byte| u8::from_str_radix(byte, 16).unwrap_or_else(|_| panic!("{line}"))));
        }
        pictures.push(bytes);
    }
    pictures
}

/// A cell as the page's tables say it.
fn words(array: &Array, cell: usize) -> String {
    match array.cell(cell) {
        Some(Cell::Value(value)) => format!("value {:?}", std::str::from_utf8(value).unwrap()),
        Some(Cell::Null { level }) => format!("null at level {level}"),
        None => panic!("no cell {cell}"),
    }
}

fn stored(kind: Kind, shape: &[u64], cells: &[Cell<'_>]) -> Vec<u8> {
    encode(&Array::from_cells(kind, shape, cells).unwrap()).unwrap()
}

#[test]
fn pictures_are_real() {
    let fixed = |depth, size| Kind::fixed(depth, size, Order::Little);
    let start = |depth| Kind::ragged(depth, Width::Four, Place::Start);
    let (a, empty, null1, null2) =
        (Cell::Value(b"A"), Cell::Value(b""), Cell::Null { level: 1 }, Cell::Null { level: 2 });
    let two = [Cell::Value(&[10, 11]), Cell::Value(&[12, 13])];
    let ragged = [Cell::Value(b"AB"), empty];
    let wanted = [
        stored(fixed(0, 2), &[2], &two),
        stored(Kind::fixed(0, 2, Order::Big), &[2], &two),
        stored(Kind::ragged(0, Width::Four, Place::End), &[2], &ragged),
        stored(Kind::ragged(0, Width::Eight, Place::Start), &[2], &ragged),
        stored(fixed(1, 2), &[3], &[Cell::Value(&[10, 11]), null1, Cell::Value(&[14, 15])]),
        stored(fixed(1, 2), &[3], &[null1; 3]),
        stored(fixed(2, 1), &[3], &[Cell::Value(&[7]), null2, null1]),
        stored(start(2), &[2, 2], &AFFINITY),
        stored(start(2), &[1], &[a]),
        stored(start(2), &[1], &[empty]),
        stored(start(2), &[1], &[null2]),
        stored(start(2), &[1], &[null1]),
        encode_interleaved(&Array::from_cells(start(0), &[2], &[a, empty]).unwrap()).unwrap(),
    ];
    let numbers: Vec<u8> = (1..=9).collect();
    let nine: Vec<Cell<'_>> = (0..9)
        .map(|cell| match cell {
            0 | 7 => Cell::Value(&numbers[cell..=cell]),
            8 => null1,
            _ => null2,
        })
        .collect();
    let packed = [
        stored(fixed(1, 2).packed(), &[3], &[Cell::Value(&[10, 11]), null1, Cell::Value(&[14, 15])]),
        stored(fixed(2, 1).packed(), &[9], &nine),
    ];
    let load = |kind, cells, number| encode(&generate(kind, &[cells], number).unwrap()).unwrap();
    let loads = [load(fixed(1, 1), 2, 0), load(start(0), 2, 1), load(start(2), 4, 7)];
    let empty_at_end = stored(Kind::ragged(0, Width::Four, Place::End), &[1], &[empty]);
    let longer = stored(Kind::ragged(0, Width::Four, Place::End), &[1], &[Cell::Value(&empty_at_end)]);
    assert!(longer.starts_with(&empty_at_end));
    let affinity = Array::from_cells(start(2), &[2, 2], &AFFINITY).unwrap();
    let seen = GUESTS.map(|plane| encode(&guest_read(&affinity, &Rights::new(&plane)).unwrap()).unwrap());
    let of_host = stored(start(2), &[1, 2], &[null1, empty]);
    let arranged =
        [(2, 8), (1, 13)].map(|(depth, number)| encode(&arrangement(start(depth), &[2], number).unwrap()).unwrap());
    // The library writes no such byte.
    let tail = [&wanted[12][..], b"!"].concat();
    let ends = [empty_at_end, longer, tail];
    let all: Vec<&Vec<u8>> = wanted
        .iter()
        .chain(&packed)
        .chain(&loads)
        .chain(&ends)
        .chain(&seen)
        .chain([&of_host])
        .chain(&arranged)
        .collect();
    let pictures = pictures(PAGE, "bytes");
    assert_eq!(pictures.len(), all.len());
    for (number, (picture, wanted)) in pictures.iter().zip(all).enumerate() {
        assert_eq!(picture, wanted, "picture {number}");
    }
    let interleaved = decode_interleaved(2, &pictures[12]).unwrap();
    assert_eq!((interleaved.cell(0), interleaved.cell(1)), (Some(&b"A"[..]), Some(&b""[..])));

    let lengths: Vec<usize> = pictures.iter().map(Vec::len).collect();
    assert_eq!(
        lengths,
        [4, 4, 22, 34, 23, 19, 38, 64, 51, 50, 34, 17, 13, 21, 37, 19, 27, 59, 16, 32, 14, 58, 54, 51, 52, 41]
    );
}

/// Part 8.
#[test]
fn refused_pictures_are_refused() {
    let flat = Kind::ragged(0, Width::Four, Place::Start);
    let long = [(Kind::fixed(1, 2, Order::Little), 3, 24), (Kind::fixed(2, 1, Order::Little), 1, 34), (flat, 1, 19)];
    let late = [(flat, 1, 18), (flat, 1, 17)];
    for (fence, refusal, tables) in
        [("refused 8", Refusal::Length, &long[..]), ("refused 10", Refusal::Falling, &late[..])]
    {
        let pictures = pictures(PAGE, fence);
        assert_eq!(pictures.len(), tables.len());
        for (bytes, &(kind, cells, length)) in pictures.iter().zip(tables) {
            assert_eq!((decode(kind, &[cells], bytes), bytes.len()), (Err(refusal), length), "{bytes:02X?}");
        }
    }
}

/// Part 14: bytes after the last cell of the interleaved form change nothing; bytes of other kinds and shapes tell nothing.
#[test]
fn what_bytes_do_not_tell() {
    let pictures = pictures(PAGE, "bytes");
    assert_eq!(decode_interleaved(2, &pictures[20]), decode_interleaved(2, &pictures[12]));
    let bytes = [10, 11, 12, 13];
    let [little, big] =
        [Order::Little, Order::Big].map(|order| decode(Kind::fixed(0, 2, order), &[2], &bytes).unwrap());
    assert_eq!((&little.values[..], &big.values[..]), (&bytes[..], &[11, 10, 13, 12][..]));
    let kind = Kind::fixed(0, 1, Order::Little);
    let cells = [1, 2, 3, 4, 5, 6];
    let [wide, long] = [[2, 3], [3, 2]].map(|shape| decode(kind, &shape, &cells).unwrap());
    assert_eq!(encode(&wide), encode(&long));
    assert_ne!(wide, long);
    // Hidden in memory.
    let kind = Kind::fixed(1, 1, Order::Little);
    let hidden = |value| Array { kind, shape: vec![1], masks: vec![0], values: vec![value], offsets: vec![] };
    assert_eq!(encode(&hidden(0)), encode(&hidden(7)));
}

/// Part 13: the first twenty draws of start number 0, by the page's own rule; as value bytes they are a load.
#[test]
fn draws_are_real() {
    let mut state: u64 = 0;
    let mut bytes = Vec::new();
    for number in 1..=20 {
        state = (1_664_525 * state + 1_013_904_223) % 4_294_967_296;
        let draw = state / 65_536;
        bytes.push((draw % 256) as u8);
        let grouped = |n: u64| {
            let digits = n.to_string();
            let groups: Vec<&str> =
                digits.as_bytes().rchunks(3).rev().map(|g| std::str::from_utf8(g).unwrap()).collect();
            groups.join(",")
        };
        let row = format!(
            "| {number} | {} | {} | {} | {} | {:02X} |\n",
            grouped(state),
            grouped(draw),
            draw % 4,
            draw % 9,
            draw % 256
        );
        assert!(PAGE.contains(&row), "{row}");
    }
    assert_eq!(generate(Kind::fixed(0, 1, Order::Little), &[20], 0).unwrap().values, bytes);
}

/// Part 17: the states of a cell, how many arrangements there are, and all of depth 1 with one cell and with two.
#[test]
fn arrangements_are_real() {
    let page = part("17");
    let kind = |depth| Kind::ragged(depth, Width::Four, Place::Start);
    let hex = |bytes: &[u8]| bytes.iter().map(|byte| format!("{byte:02X}")).collect::<Vec<_>>().join(" ");
    let listed = |numbers: Vec<u64>| numbers.iter().map(u64::to_string).collect::<Vec<_>>().join(", ");
    let what = |array: &Array, cell: usize| match array.cell(cell) {
        Some(Cell::Value(b"")) => "value \"\"".to_string(),
        Some(Cell::Value(value)) => format!("value hex {}", hex(value)),
        _ => words(array, cell),
    };
    let has = |row: String| assert!(page.contains(&format!("\n{row}\n")), "{row}");

    for state in 0..6 {
        let at_depth = |depth: u64| match arrangement(kind(depth), &[1], state) {
            Ok(array) if depth == 0 => format!(" `-`, {} |", what(&array, 0)),
            Ok(array) => format!(" {}, {} |", hex(&array.masks), what(&array, 0)),
            Err(_) => " |".to_string(),
        };
        has(format!("| {state} |{}", (0..=2).map(at_depth).collect::<String>()));
    }
    let mut all = 0;
    for depth in 0..=2 {
        let counts: Vec<u64> = (1..=4).map(|cells| arrangement_count(depth, cells)).collect();
        all += counts.iter().sum::<u64>();
        let row: Vec<String> = counts.iter().map(u64::to_string).collect();
        has(format!("| {depth} | {} |", row.join(" | ").replace("1296", "1,296")));
    }
    assert_eq!(all, 2_674);
    for cells in [1, 2] {
        for (number, array) in arrangements(kind(1), &[cells]).unwrap().enumerate() {
            let said: String = (0..cells as usize).map(|cell| format!(" {} |", what(&array, cell))).collect();
            let lengths = array.offsets.windows(2).map(|two| two[1] - two[0]).collect();
            has(format!(
                "| {number} |{said} {} | {} | {} |",
                hex(&array.masks),
                listed(lengths),
                listed(array.offsets.clone())
            ));
        }
    }
}

#[test]
fn answers_of_the_questions() {
    let one = Kind::ragged(1, Width::Four, Place::Start);
    assert_eq!(stored(one, &[2], &[Cell::Null { level: 1 }; 2]).len(), 18);
    // Part 12: one cell reads alike in both forms of masks.
    for cell in [Cell::Value(b"A"), Cell::Null { level: 1 }] {
        let alike = stored(one, &[1], &[cell]);
        assert_eq!(alike, stored(one.packed(), &[1], &[cell]));
        assert_eq!(decode(one.packed(), &[1], &alike).unwrap().cell(0), Some(cell));
    }
    let kind = Kind::ragged(2, Width::Four, Place::Start);
    let mut affinity = pictures(PAGE, "bytes")[7].clone();
    affinity[51] = 4;
    let table = decode(kind, &[2, 2], &affinity).unwrap();
    assert_eq!((table.cell(0), table.cell(1)), (Some(Cell::Value(b"0-3,")), Some(Cell::Value(b"8"))));
}

/// Part 15: the store after each step, and previews of the next.
#[test]
fn stores_are_real() {
    let kind = Kind::ragged(2, Width::Four, Place::Start);
    let mut table = Table::make(&Array::from_cells(kind, &[2, 2], &AFFINITY).unwrap(), 12).unwrap();
    assert_eq!((&table.starts[..], &table.lengths[..]), (&[0; 4][..], &[5, 0, 0, 0][..]));
    let mut stores = vec![table.store.clone()];
    table.set(2, Cell::Value(b"4-7")).unwrap();
    assert_eq!((table.starts[2], table.lengths[2]), (5, 3));
    stores.push(table.store.clone());
    table.set(0, Cell::Null { level: 2 }).unwrap();
    assert_eq!((table.masks[0], table.masks[4], table.starts[0], table.lengths[0]), (1, 0, 0, 0));
    stores.push(table.store.clone());
    table.set(1, Cell::Value(b"12")).unwrap();
    stores.push(table.store.clone());
    let before = table.clone();
    for (cell, to, what) in [
        (0, Cell::Value(b"A"), "0,0 to \"A\""),
        (0, Cell::Value(b"0-1,4-5"), "0,0 to \"0-1,4-5\""),
        (1, Cell::Value(b""), "0,1 to \"\""),
        (2, Cell::Null { level: 1 }, "1,0 to null at level 1"),
    ] {
        let Preview { total, unpacked } = before.preview(cell, to).unwrap();
        let row = format!("\n| {what} | {total} | {unpacked} | ");
        assert!(PAGE.contains(&row), "{row}");
    }
    assert_eq!(before.preview(0, Cell::Value(b"0-1,4-5,")), Err(Refusal::Full));
    assert!(PAGE.contains("\n| 0,0 to \"0-1,4-5,\" | | | refused with 16: 5 and 8 are more than 12 |"));
    for moved in [1, 1] {
        assert_eq!(table.pack(1), Ok(moved));
        stores.push(table.store.clone());
    }
    assert_eq!(table.pack(1), Ok(0));
    table = before;
    table.set(0, Cell::Value(b"0-1,4-5")).unwrap();
    assert_eq!(table.starts, [5, 3, 0, 0]);
    stores.push(table.store.clone());
    assert_eq!(pictures(part("15"), "store"), stores);
    assert_eq!(table.set(3, Cell::Value(b"8")), Err(Refusal::Full));
    let read = table.read(&[2, 2]).unwrap();
    assert_eq!((&read.values[..], &read.offsets[..]), (&b"0-1,4-5124-7"[..], &[0, 7, 9, 12, 12][..]));
    assert!(PAGE.contains("values `0-1,4-5124-7`, offsets 0, 7, 9, 12, 12"));
}

/// Part 16: what each guest reads, the store before and after an edit, and what else an edit is answered.
#[test]
fn guests_are_real() {
    let page = part("16");
    let kind = Kind::ragged(2, Width::Four, Place::Start);
    let affinity = Array::from_cells(kind, &[2, 2], &AFFINITY).unwrap();
    let planes = GUESTS.map(|plane| Rights::new(&plane));
    let seen = [0, 1].map(|guest| guest_read(&affinity, &planes[guest]).unwrap());
    for (cell, name) in ["0,0", "0,1", "1,0", "1,1"].into_iter().enumerate() {
        let [table, one, other] = [&affinity, &seen[0], &seen[1]].map(|array| words(array, cell));
        let row = format!("\n| {name} | {table} | {one} | {other} |\n");
        assert!(page.contains(&row), "{row}");
    }
    for array in &seen {
        assert_eq!((array.masks.len(), array.offsets.len()), (8, 5));
    }
    assert_eq!((seen[0].values.len(), seen[1].values.len()), (5, 0));
    let [first, second] = &planes;
    assert!(page.contains(&format!("Guest 0 has the plane `{first}`, guest 1 the plane `{second}`:")));
    assert_eq!((first.to_string().parse(), first.bytes()), (Ok(first.clone()), &[1, 0, 1, 0][..]));
    assert!(page.contains(&format!("`{first}` is the four bytes 01 00 01 00.")));
    assert!(page.contains("here 8 mask bytes and 5 offsets for both, and 5 value bytes for guest 0, none for guest 1"));

    let mut table = Table::make(&affinity, 12).unwrap();
    table.set(2, Cell::Value(b"4-7")).unwrap();
    table.set(1, Cell::Value(b"12")).unwrap();
    for (cell, to, row) in [
        (0, &b"0-1,4-5,"[..], "| 0,0 to \"0-1,4-5,\" | 16 |"),
        (1, b"8", "| 0,1 to \"8\", or to a value of 100 bytes | 18 |"),
        (1, &[b'8'; 100], "| 0,1 to \"8\", or to a value of 100 bytes | 18 |"),
        (4, b"", "| a cell of number 4 | 15 |"),
    ] {
        let refusal = table.clone().guest_edit(&planes[0], cell, Cell::Value(to)).unwrap_err();
        assert!(page.contains(row) && row.ends_with(&format!("| {} |", refusal.number())), "{row}: {refusal}");
    }
    let mut stores = vec![table.store.clone()];
    table.guest_edit(&planes[0], 0, Cell::Value(b"0-1,4-5")).unwrap();
    assert_eq!((&table.starts[..], table.cell(1)), (&[5, 3, 0, 0][..], Some(Cell::Value(b"12"))));
    stores.push(table.store);
    assert_eq!(pictures(page, "store"), stores);
}

/// Part 16: what both planes show, and what is read of a host and of both, cut and merged before and behind the read.
#[test]
fn planes_combine_as_the_page_says() {
    let page = part("16");
    let kind = Kind::ragged(2, Width::Four, Place::Start);
    let shape = [2, 2];
    let affinity = Array::from_cells(kind, &shape, &AFFINITY).unwrap();
    let (guest, host) = (Rights::new(&GUESTS[1]), Rights::new(&HOST));
    let both = guest.both(&host).unwrap();
    let read = |array: &Array, plane: &Rights| guest_read(array, plane).unwrap();
    let (seen, seen_by_both) = (read(&affinity, &guest), read(&affinity, &both));
    let digits = |plane: &Rights| plane.bytes().iter().map(u8::to_string).collect();
    let cells: Vec<String> = (0..4).map(|cell| words(&seen_by_both, cell)).collect();
    for (name, row) in
        [("guest 1", digits(&guest)), ("host 0", digits(&host)), ("both", digits(&both)), ("is read", cells)]
    {
        let row = format!("\n| {name} | {} |\n", row.join(" | "));
        assert!(page.contains(&row), "{row}");
    }
    for again in [read(&seen, &host), read(&read(&affinity, &host), &guest), read(&seen_by_both, &both)] {
        assert_eq!(again, seen_by_both);
    }

    let hosts: [Subset; 2] = ["0..1,0..2", "1..2,0..2"].map(|subset| subset.parse().unwrap());
    let planes = hosts.each_ref().map(|subset| extract(guest.array(&shape), subset).unwrap());
    assert_eq!(planes.each_ref().map(|plane| &plane.values[..]), [[0, 1]; 2]);
    assert!(page.contains("which becomes `0,1`.") && page.contains("host 1 has the plane `0,1`, too."));
    assert!(page.contains(&format!("the plane is `{guest}` again")));
    let parts = [0, 1].map(|host| {
        let cut = extract(&affinity, &hosts[host]).unwrap();
        read(&cut, &Rights::from_array(planes[host].clone()).unwrap())
    });
    assert_eq!(encode(&parts[0]).unwrap(), pictures(page, "bytes")[2]);
    assert_eq!(parts, hosts.each_ref().map(|subset| extract(&seen, subset).unwrap()));

    let merged =
        |parts: &[Array; 2]| merge(parts[0].kind, &shape, &[0, 1].map(|host| Chunk::new(&hosts[host], &parts[host])));
    assert_eq!(merged(&planes).and_then(Rights::from_array), Ok(guest));
    assert_eq!(merged(&parts), Ok(seen));
}

/// Part 18: the old bytes, the area after each step, and what the page says of them.
#[test]
fn live_tables_are_real() {
    let page = part("18");
    let has = |text: &str| assert!(page.contains(text), "{text}");
    let one = |cell: &[u8]| {
        let array = Array::from_cells(LiveTable::KIND, &[1], &[Cell::Value(cell)]).unwrap();
        encode_interleaved(&array).unwrap()
    };
    let old = [one(b"A"), one(b"BC"), vec![0xFF]].concat();
    assert_eq!(pictures(page, "old"), [old.clone()]);
    let (mut moved_lengths, mut area) = ([7, 7], [0xEE; 52]);
    let mut table = LiveTable {
        shape: &[2],
        subsets: &[1, 1, 0, 1],
        old_lengths: &[9, 11],
        old: &old,
        moved: 0,
        moved_lengths: &mut moved_lengths,
        area: &mut area,
    };
    has(&format!("stored as `{}`", LiveTable::KIND));
    let mut areas = Vec::new();
    let mut lengths = Vec::new();
    loop {
        let cut = table.extract(Width::Eight, Place::Start, &Subset::whole(&[2])).unwrap();
        assert_eq!((&cut.values[..], &cut.offsets[..]), (&b"BCA"[..], &[0, 2, 3][..]));
        let Step::Moved { bytes, moved } = table.step().unwrap() else { break };
        has(&format!("{bytes} bytes and {moved} chunk"));
        areas.push(table.area.to_vec());
        lengths.push(table.moved_lengths.to_vec());
    }
    assert_eq!(page.matches(", offsets 0, 2, 3").count(), 3);
    assert_eq!(pictures(page, "area"), areas);
    assert_eq!(lengths, [[25, 7], [25, 26]]);
    has("The moved lengths are 25 and 7.");
    has("the moved lengths are 25 and 26.");

    // With an area of 50 bytes, of 51, and with old lengths 8 and 12.
    let (mut moved_lengths, mut short) = ([25, 7], areas[0][..50].to_vec());
    let mut table = LiveTable {
        shape: &[2],
        subsets: &[1, 1, 0, 1],
        old_lengths: &[9, 11],
        old: &old,
        moved: 1,
        moved_lengths: &mut moved_lengths,
        area: &mut short,
    };
    assert_eq!(table.step(), Err(Refusal::Output));
    let mut longer = areas[0][..51].to_vec();
    table.area = &mut longer;
    assert_eq!(table.step(), Ok(Step::Moved { bytes: 26, moved: 2 }));
    (table.moved, table.old_lengths) = (0, &[8, 12]);
    assert_eq!(table.step(), Err(Refusal::PastEnd));
}
