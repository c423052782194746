// What is measured: entering, cells, parts, ties, undoing, all that is told, and what comes back or doesn't.
use crate::calls::*;
use crate::timing::Case;

const LENGTHS: [u32; 4] = [100, 10_000, 1_000_000, 16_777_216];

// A row so long, which is a multiple of four: the same parts for each length.
pub fn of_length(n: u32) -> Row {
    times(n / 4, then(run(0, 1), turned(run(2, 3))))
}

// Rows made to be nasty, of so many shafts or treadles.
pub fn nasty_rows(limit: u32, chance: &mut Chance) -> Vec<(&'static str, Row)> {
    let chain = (0..31).fold(one(0), |row, k| then(row, one(k % limit)));
    let inner = then(run(0, limit - 1), run(limit / 2, 0));
    let turns = (0..30).fold(inner, |row, _| turned(row));
    let numbers: Vec<Row> = (0..128).map(|_| one(chance.below(limit))).collect();
    vec![
        ("31 joins in a chain", chain),
        ("turned thirty times", turns),
        ("128 numbers in halves", halves(&numbers)),
    ]
}

// A row of 256 parts as a weaver may write it: short runs, some of them repeated.
pub fn plain_256(limit: u32, chance: &mut Chance) -> Row {
    let part = |chance: &mut Chance| run(chance.below(limit), chance.below(limit));
    let mut items: Vec<Row> = (0..42).map(|_| part(chance)).collect();
    items.extend((0..57).map(|_| times(2 + chance.below(9), part(chance))));
    times(4, halves(&items))
}

// A row of 256 parts that are numbers in halves, turned.
pub fn nasty_256(limit: u32, chance: &mut Chance) -> Row {
    let numbers: Vec<Row> = (0..128).map(|_| one(chance.below(limit))).collect();
    turned(halves(&numbers))
}

// Half of all ties, by chance.
fn some_ties(shafts: u32, treadles: u32, chance: &mut Chance) -> Vec<Vec<u8>> {
    let all = (0..treadles).flat_map(|t| (0..shafts).map(move |s| tie(t, s)));
    all.filter(|_| chance.once_in(2)).collect()
}

fn draft(limits: [u32; 3], threading: Row, treadling: Row, chance: &mut Chance) -> Vec<Vec<u8>> {
    let mut calls = some_ties(limits[0], limits[1], chance);
    calls.push(thread(threading));
    calls.push(treadle(treadling));
    calls
}

// A draft and its loom, with a name.
struct Draft {
    name: &'static str,
    limits: [u32; 3],
    setup: Vec<Vec<u8>>,
}

fn drafts(chance: &mut Chance) -> Vec<Draft> {
    let mut all = vec![];
    let twill: Vec<Vec<u8>> = (0..4)
        .flat_map(|t| [tie(t, t), tie(t, (t + 1) % 4)])
        .collect();
    let row = times(2500, run(0, 3));
    all.push(Draft {
        name: "plain: a twill, 4 shafts",
        limits: [4, 4, 8],
        setup: [twill, vec![thread(row.clone()), treadle(row)]].concat(),
    });
    let point = times(300, then(run(0, 15), run(14, 1)));
    let limits = [16, 16, 8];
    all.push(Draft {
        name: "plain: a point, 16 shafts",
        limits,
        setup: draft(limits, point.clone(), times(40, point), chance),
    });
    for (name, row) in nasty_rows(64, chance) {
        let limits = [64, 64, 8];
        all.push(Draft {
            name,
            limits,
            setup: draft(limits, row.clone(), row, chance),
        });
    }
    all
}

fn entering(cases: &mut Vec<Case>, chance: &mut Chance) {
    let mut rows: Vec<(String, Row)> = LENGTHS
        .iter()
        .map(|n| (format!("a row of {n}"), of_length(*n)))
        .collect();
    let nasty = nasty_rows(4, chance).into_iter();
    rows.extend(nasty.map(|(name, row)| (name.to_string(), row)));
    for (name, row) in rows {
        cases.push(Case {
            group: "entering",
            name,
            limits: [4, 4, 8],
            setup: vec![],
            before: vec![],
            calls: vec![thread(row)],
            each: 1,
        });
    }
}

fn cells(cases: &mut Vec<Case>, chance: &mut Chance) {
    let limits = [4, 4, 8];
    let mut setups: Vec<(String, [u32; 3], Vec<Vec<u8>>)> = LENGTHS
        .iter()
        .map(|n| {
            (
                format!("rows of {n}"),
                limits,
                draft(limits, of_length(*n), of_length(*n), chance),
            )
        })
        .collect();
    let nasty = drafts(chance).into_iter();
    setups.extend(nasty.map(|d| (d.name.to_string(), d.limits, d.setup)));
    for (name, limits, setup) in &setups {
        let (group, name) = ("a cell", name.clone());
        let calls: Vec<Vec<u8>> = (0..1024)
            .map(|_| cell(chance.next() as u32, chance.next() as u32))
            .collect();
        cases.push(Case {
            group,
            name,
            limits: *limits,
            setup: setup.clone(),
            before: vec![],
            each: calls.len(),
            calls,
        });
    }
    for (name, limits, setup) in setups {
        let group = "a part of 1,024 cells";
        let calls: Vec<Vec<u8>> = (0..64)
            .map(|_| part(chance.next() as u32, chance.next() as u32, 1024))
            .collect();
        cases.push(Case {
            group,
            name,
            limits,
            setup,
            before: vec![],
            each: calls.len(),
            calls,
        });
    }
}

fn changes(cases: &mut Vec<Case>, chance: &mut Chance) {
    let ties: Vec<Vec<u8>> = (0..256)
        .map(|_| tie(chance.below(64), chance.below(64)))
        .collect();
    let limits = [64, 64, 256];
    cases.push(Case {
        group: "changes",
        name: "a tie".to_string(),
        limits,
        setup: vec![],
        before: vec![],
        calls: ties.clone(),
        each: 256,
    });
    cases.push(Case {
        group: "changes",
        name: "undoing".to_string(),
        limits,
        setup: vec![],
        before: ties,
        calls: vec![back(); 256],
        each: 256,
    });
}

const NAMES: [&str; 6] = [
    "floats of ends on the face",
    "floats of ends on the back",
    "floats of picks on the face",
    "floats of picks on the back",
    "fewest",
    "hangs",
];

fn told(cases: &mut Vec<Case>, chance: &mut Chance) {
    for draft in drafts(chance) {
        for (name, question) in NAMES.iter().zip(questions()) {
            cases.push(Case {
                group: "told",
                name: format!("{name}; {}", draft.name),
                limits: draft.limits,
                setup: draft.setup.clone(),
                before: vec![],
                calls: vec![question],
                each: 1,
            });
        }
    }
}

type Kind = (&'static str, fn(u32, &mut Chance) -> Row);

const KINDS: [Kind; 2] = [("plain", plain_256), ("nasty", nasty_256)];

const TIES: usize = 1000;

fn thousand_ties(cases: &mut Vec<Case>, chance: &mut Chance) {
    for (name, row) in KINDS {
        for n in [4, 8, 16, 32, 64] {
            let limits = [n, n, 8];
            let (threading, treadling) = (row(n, chance), row(n, chance));
            let mut calls = vec![];
            for _ in 0..TIES {
                calls.push(tie(chance.below(n), chance.below(n)));
                calls.extend(questions());
            }
            cases.push(Case {
                group: "a thousand ties, all asked after each",
                name: format!("{name} rows of 256 parts, {n} shafts and treadles"),
                limits,
                setup: draft(limits, threading, treadling, chance),
                before: vec![],
                calls,
                each: TIES,
            });
        }
    }
}

// A new row before what is asked, so that nothing that was found before is of use.
fn nothing_back(cases: &mut Vec<Case>, chance: &mut Chance) {
    for (kind, row) in KINDS {
        let limits = [16, 16, 8];
        let mut entered = || -> Vec<Vec<u8>> {
            let rows = (0..8).flat_map(|_| [thread(row(16, chance)), treadle(row(16, chance))]);
            rows.collect()
        };
        let rows = entered();
        let setup = entered();
        let mut push = |name: String, calls: Vec<Vec<u8>>| {
            cases.push(Case {
                group: "nothing comes back",
                name: format!("{name}; {kind}"),
                limits,
                setup: [some_ties(16, 16, &mut Chance(3)), setup.clone()].concat(),
                before: vec![],
                each: rows.len(),
                calls,
            });
        };
        push("a row".to_string(), rows.clone());
        let turns = rows.iter().zip(questions().into_iter().cycle());
        push(
            "a row and a question in turn".to_string(),
            turns.flat_map(|(r, q)| [r.clone(), q]).collect(),
        );
        for (name, question) in NAMES.iter().zip(questions()) {
            push(
                format!("a row and {name}"),
                rows.iter()
                    .flat_map(|r| [r.clone(), question.clone()])
                    .collect(),
            );
        }
    }
}

pub fn all() -> Vec<Case> {
    let chance = &mut Chance(11);
    let mut cases = vec![];
    entering(&mut cases, chance);
    cells(&mut cases, chance);
    changes(&mut cases, chance);
    told(&mut cases, chance);
    thousand_ties(&mut cases, chance);
    nothing_back(&mut cases, chance);
    cases
}
