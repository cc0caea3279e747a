//! Each call once, with answers worked out by hand, and each fault.

use rudekpi::{
    audit, local_rule, may_move, version, Audit, BadView, Counts, Damage, Enabled, Fault, Item, LocalMove, Move,
    Network, Record, Refusal, Registers, Rule, Rules, Verdict,
};

/// Three nodes in a row, 1 - 2 - 3, of four names, before any move.
fn row(rules: Rules) -> Network {
    let mut net = Network::with_present(rules, 4, 3).expect("a network");
    assert_eq!((net.link(1, 2), net.link(2, 3)), (Ok(1), Ok(2)));
    net
}

#[test]
fn edits_steps_and_questions() {
    let mut net = row(Rules::HsuHuang);
    let seduces = |node| Enabled {
        node,
        rule: Rule::Seduce,
    };
    assert_eq!(net.enabled(), Ok(vec![seduces(1), seduces(2), seduces(3)]));
    let chosen = [Item { node: 2, wish: Some(3) }];
    assert_eq!(
        net.step(&chosen),
        Ok(vec![Move {
            node: 2,
            rule: Rule::Seduce,
            target: Some(3)
        }])
    );
    assert_eq!((net.show(2), net.show(3)), (Ok(Some(3)), Ok(None)));
    assert_eq!(net.drive(1, 9), Ok(7));
    assert_eq!(net.matching(), Ok(vec![(2, 3)]));
    assert_eq!((net.partner(3), net.partner(1)), (Ok(Some(2)), Ok(None)));
    let silent = Counts {
        nodes: 3,
        edges: 2,
        pairs: 1,
        enabled: 0,
        charge: 0,
        spent: 2,
    };
    assert_eq!(net.status(), Ok(silent));
    assert_eq!((net.moves_left(), net.is_at_rest(1)), (Ok(0), Ok(true)));
    assert_eq!((net.nodes(), net.restless()), (Ok(vec![1, 2, 3]), Ok(vec![])));
    assert_eq!((net.neighbours(2), net.neighbours(4)), (Ok(vec![1, 3]), Ok(vec![])));
    assert_eq!(net.edges(), Ok(vec![(1, 2), (2, 3)]));
    let of = |pointer, present| Registers {
        pointer,
        flag: false,
        present,
    };
    assert_eq!(
        (net.registers(2), net.registers(4)),
        (Ok(of(Some(3), true)), Ok(of(None, false)))
    );
    assert_eq!(net.join(4), Ok(10));
    assert_eq!(net.leave(4), Ok(11));
}

#[test]
fn costs_and_reach() {
    let mut net = row(Rules::HsuHuang);
    net.drive(1, 9).expect("a drive");
    let (a, b) = net.matching().expect("pairs")[0];
    let lone = if (a, b) == (1, 2) { 3 } else { 1 };
    assert_eq!((net.cost_of_link(1, 3), net.cost_of_unlink(a, b)), (Ok(2), Ok(2)));
    assert_eq!((net.cost_of_join(4), net.cost_of_leave(lone)), (Ok(0), Ok(0)));
    assert_eq!(
        (net.cost_of_point(lone, Some(2)), net.cost_of_flag(1, true)),
        (Ok(1), Ok(0))
    );
    assert_eq!(net.reach_of_unlink(a, b), Ok(vec![1, 2, 3]));
    assert_eq!(
        (net.reach_of_link(1, 3), net.reach_of_flag(1, true)),
        (Ok(vec![]), Ok(vec![]))
    );
    assert_eq!(net.reach_of_point(lone, Some(2)), Ok(vec![lone]));
    assert_eq!(net.reach_of_leave(lone), Ok(vec![]));
}

#[test]
fn faults_of_calls() {
    let mut net = row(Rules::Manne);
    let refused = |why, entry| Err(Fault::Refused { why, entry });
    assert_eq!(net.link(1, 1), refused(Refusal::SelfLoop, 3));
    assert_eq!(net.link(1, 4), refused(Refusal::UnknownNode, 4));
    assert_eq!(net.link(0, 1), Err(Fault::BadArgument));
    assert_eq!(Network::new(Rules::Manne, 65_536).err(), Some(Fault::BadArgument));
    assert_eq!(net.feed(b"lnk 1 2"), Err(Fault::BadLine { number: 1 }));
    assert_eq!(net.feed(b""), Ok(()));
    assert_eq!(net.point(1, None), Ok(5));
    assert_eq!(net.flag(1, true), Ok(6));
    assert_eq!(net.scramble(3, 2), Ok(8));
    assert_eq!(net.unlink(1, 2), Ok(9));
    assert_eq!(Fault::BadLine { number: 1 }.to_string(), "line 1: not a command");
    assert_eq!(Refusal::from_number(13), Some(Refusal::AlreadyPresent));
    assert_eq!((Refusal::from_number(0), Refusal::from_number(14)), (None, None));
}

#[test]
fn silent_costs() {
    // 1 and 2 are a pair, 3 is linked with 2 and points nowhere, 4 is absent
    let mut net = row(Rules::HsuHuang);
    assert_eq!(net.silent_cost_of_unlink(1, 2), Ok(None));
    for node in [1, 2] {
        net.step(&[Item { node, wish: None }]).expect("a move");
    }
    assert_eq!(net.matching(), Ok(vec![(1, 2)]));
    assert_eq!(net.silent_cost_of_link(1, 3), Ok(Some(0)));
    assert_eq!(net.silent_cost_of_unlink(1, 2), Ok(Some(2)));
    assert_eq!(
        (net.silent_cost_of_join(4), net.silent_cost_of_leave(1)),
        (Ok(Some(0)), Ok(Some(2)))
    );
    assert_eq!(
        (net.silent_cost_of_point(1, 0), net.silent_cost_of_flag(1, true)),
        (Ok(Some(3)), Ok(Some(0)))
    );
    assert_eq!(net.silent_cost_of_leave(0), Err(Fault::BadArgument));
}

#[test]
fn rounds() {
    // three nodes, each linked with each, that point at each other in a ring
    let mut net = row(Rules::HsuHuang);
    assert_eq!((net.link(1, 3), net.point(1, Some(2))), (Ok(3), Ok(4)));
    assert_eq!((net.point(2, Some(3)), net.point(3, Some(1))), (Ok(5), Ok(6)));
    assert_eq!(net.rounds(), Err(Fault::NotCounted));
    assert_eq!(net.rounds_left(), Err(Fault::NotCounted));
    assert_eq!(Fault::NotCounted.to_string(), "rounds are not counted");
    assert_eq!(net.count_rounds(), Ok(()));
    assert_eq!((net.rounds(), net.rounds_left()), (Ok(0), Ok(3)));
    let longest = [
        (1, None, 0, 3),
        (2, None, 1, 2),
        (2, Some(1), 1, 2),
        (1, Some(3), 2, 1),
        (2, None, 3, 0),
    ];
    for (node, wish, rounds, left) in longest {
        net.step(&[Item { node, wish }]).expect("a move");
        assert_eq!((net.rounds(), net.rounds_left()), (Ok(rounds), Ok(left)));
    }
    // an accepted edit begins anew; a refused one does not
    assert_eq!(
        net.link(1, 1),
        Err(Fault::Refused {
            why: Refusal::SelfLoop,
            entry: 12
        })
    );
    assert_eq!(net.rounds(), Ok(3));
    assert_eq!(net.unlink(1, 3), Ok(13));
    assert_eq!((net.rounds(), net.rounds_left()), (Ok(0), Ok(3)));
}

#[test]
fn audits() {
    let mut net = row(Rules::HsuHuang);
    net.checkpoint().expect("a base");
    let text = net.take_transcript();
    assert!(net.take_transcript().is_empty());
    let verdict = audit(&text).expect("memory");
    assert_eq!(verdict.to_string(), "accepted: 2 entries, 3 epochs, 0 moves");
    let mut pieces = Audit::new().expect("memory");
    assert!(text.chunks(7).all(|it| pieces.feed(it) == Ok(true)));
    assert_eq!(pieces.finish(), Ok(verdict));
    let damaged = Verdict::Damaged {
        line: 1,
        damage: Damage::BadHeader,
    };
    assert_eq!(audit(b""), Ok(damaged));
    let mut pieces = Audit::new().expect("memory");
    assert_eq!(pieces.feed(b"matching hh x\n"), Ok(false));
    assert_eq!(pieces.finish(), Ok(damaged));
    assert_eq!(net.keep_transcript(false), Ok(()));
    assert_eq!(net.show(1), Ok(None));
    assert!(net.take_transcript().is_empty());
}

#[test]
fn resumptions() {
    let mut net = row(Rules::Manne);
    net.step(&[Item { node: 1, wish: None }]).expect("a move");
    let text = net.take_transcript();
    let mut other = Network::resume(&text).expect("a network");
    let base = other.take_transcript();
    let head = b"matching2 manne 4\nbase 3 spent=1 nodes=3 edges=2\nnode 1 2 0\n";
    assert!(base.starts_with(head));
    assert_eq!(other.status().map(|it| (it.edges, it.spent)), Ok((2, 1)));
    assert_eq!(other.join(4), Ok(5));
    let whole = [text.clone(), base.clone(), other.take_transcript()].concat();
    let verdict = audit(&whole).expect("memory");
    assert_eq!(verdict.to_string(), "accepted: 5 entries, 4 epochs, 1 moves");
    assert_eq!(Network::resume(&base).and_then(|mut it| it.link(1, 3)), Ok(4));
    let damaged = Fault::Damaged {
        line: 5,
        damage: Damage::NotTheReply,
    };
    assert_eq!(
        Network::resume(&[&text[..], b"4 link 1 2 = ok\n"].concat()).err(),
        Some(damaged)
    );
    assert_eq!(damaged.to_string(), "line 5: not the machine's reply");
    assert!(matches!(Network::resume(b""), Err(Fault::Damaged { line: 1, .. })));
}

#[test]
fn renumbering() {
    let mut net = Network::new(Rules::HsuHuang, 2).expect("a network");
    net.link(1, 2).expect("an edge");
    net.step(&[Item { node: 1, wish: None }]).expect("a move");
    let ended = net.renumber().expect("new numbers");
    net.step(&[Item { node: 2, wish: None }]).expect("a move");
    let text = net.take_transcript();
    let (first, second) = text.split_at(ended);
    let base = " spent=1 nodes=2 edges=1\nnode 1 2 0\nnode 2 - 0\nedge 1 2\n";
    let begun = "matching hh 2\n1 link 1 2 = ok\n2 step 1 = 1:seduce>2\n";
    assert_eq!(first, format!("{begun}matching2 hh 2\nbase 2{base}").as_bytes());
    assert_eq!(
        second,
        format!("matching2 hh 2\nbase 0{base}1 step 2 = 2:marry>1\n").as_bytes()
    );
    let verdict = |text: &[u8]| audit(text).expect("memory").to_string();
    assert_eq!(verdict(first), "accepted: 2 entries, 2 epochs, 1 moves");
    assert_eq!(verdict(second), "accepted: 1 entries, 1 epochs, 1 moves");
}

#[test]
fn version_of_the_package() {
    let number = version();
    let text = format!("{}.{}.{}", number / 1_000_000, number / 1000 % 1000, number % 1000);
    assert_eq!(text, env!("CARGO_PKG_VERSION"));
}

/// A node 3 with neighbours 5 and 7, under Manne's rules.
fn held(pointer: Option<u32>, flag: bool, at_seven: (Option<u32>, bool)) -> (Record, [Record; 2]) {
    let record = |node, pointer, flag| Record { node, pointer, flag };
    (
        record(3, pointer, flag),
        [record(5, None, false), record(7, at_seven.0, at_seven.1)],
    )
}

#[test]
fn rule_of_one_node() {
    let told = |rule, target, pointer, flag| {
        Ok(Some(LocalMove {
            rule,
            target,
            pointer,
            flag,
        }))
    };
    let ask = |(own, near): (Record, [Record; 2])| local_rule(Rules::Manne, &own, &near);
    // 7 points at it: it marries 7; else it seduces the greatest that is above it and open
    let marries = told(Some(Rule::Marry), Some(7), Some(7), false);
    assert_eq!(ask(held(None, false, (Some(3), true))), marries);
    assert_eq!(
        ask(held(None, false, (None, false))),
        told(Some(Rule::Seduce), Some(7), Some(7), false)
    );
    assert_eq!(
        ask(held(None, false, (None, true))),
        told(Some(Rule::Seduce), Some(5), Some(5), false)
    );
    assert_eq!(
        ask(held(Some(7), false, (Some(3), true))),
        told(Some(Rule::Update), None, Some(7), true)
    );
    assert_eq!(
        ask(held(Some(7), false, (Some(9), true))),
        told(Some(Rule::Abandon), None, None, false)
    );
    assert_eq!(ask(held(Some(7), true, (Some(3), true))), Ok(None));
    // 8 is no neighbour: the repair
    assert_eq!(ask(held(Some(8), true, (None, false))), told(None, None, None, true));
}

#[test]
fn views_of_no_state() {
    let (own, near) = held(None, false, (None, false));
    let back = [near[1], near[0]];
    assert_eq!(local_rule(Rules::HsuHuang, &own, &back), Err(BadView::NotAscending(5)));
    assert_eq!(local_rule(Rules::HsuHuang, &near[0], &near), Err(BadView::OwnNeighbour));
    let (_, odd) = held(None, false, (Some(7), false));
    assert_eq!(local_rule(Rules::HsuHuang, &own, &odd), Err(BadView::PointsAtItself(7)));
    let nameless = Record { node: 0, ..own };
    assert_eq!(local_rule(Rules::HsuHuang, &nameless, &near), Err(BadView::BadArgument));
    let may = |own: &Record, rule, target| may_move(Rules::HsuHuang, own, &near, rule, target);
    // Hsu and Huang's rules let it seduce either
    assert_eq!(may(&own, Rule::Seduce, Some(5)), Ok(true));
    assert_eq!(may(&own, Rule::Seduce, Some(9)), Ok(false));
    assert_eq!(may(&own, Rule::Abandon, None), Ok(false));
    let astray = Record {
        pointer: Some(8),
        ..own
    };
    assert_eq!(may(&astray, Rule::Abandon, None), Err(BadView::PointsAtStranger(8)));
    assert_eq!(may(&own, Rule::Seduce, Some(65_536)), Err(BadView::BadArgument));
}
