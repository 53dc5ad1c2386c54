//! Random calls of the root's surface beside a `BTreeSet`, for each kind of sets, each answer compared.

/// Sets whose runs stand in one list.
mod lists {
    type Set = IntervalSet<i8>;

    const STEPS: u32 = 100_000;

    include!("beside/calls.rs");

    /// What a call of arithmetic answers: the results, from the least to the greatest of each pair of runs.
    fn arithmetic(a: &Model, b: &Model, op: fn(i32, i32) -> i32) -> Option<Model> {
        let mut all = Model::new();
        for p in runs(a) {
            for q in runs(b) {
                let corners = [*p.start(), *p.end()].map(|x| [*q.start(), *q.end()].map(|y| op(x.into(), y.into())));
                let (least, greatest) = (corners.iter().flatten().min()?, corners.iter().flatten().max()?);
                if *least < -127 || *greatest > 127 {
                    return None;
                }
                all.extend(*least as i8..=*greatest as i8);
            }
        }
        Some(all)
    }

    /// A set computed of the members of one or two, and its model; none where a condition is broken.
    fn computed(random: &mut Random, [p, q]: [&Set; 2], [u, v]: [&Model; 2]) -> (&'static str, Option<(Set, Model)>) {
        let small = random.below(7) as i8 - 3;
        let only = Model::from([small]);
        let (what, set, model) = match random.below(6) {
            0 => ("+", p.checked_add(q), arithmetic(u, v, |x, y| x + y)),
            1 => ("-", p.checked_sub(q), arithmetic(u, v, |x, y| x - y)),
            2 => ("*", p.checked_mul(q), arithmetic(u, v, |x, y| x * y)),
            3 => ("+ value", p.checked_add_value(small), arithmetic(u, &only, |x, y| x + y)),
            4 => ("- value", p.checked_sub_value(small), arithmetic(u, &only, |x, y| x - y)),
            _ => ("* value", p.checked_mul_value(small), arithmetic(u, &only, |x, y| x * y)),
        };
        assert_eq!(set.is_some(), model.is_some(), "{what}");
        (what, set.zip(model))
    }
}

/// Sets whose runs stand in pages; here in one page.
mod pages {
    type Set = PagedSet<i8>;

    const STEPS: u32 = 20_000;

    include!("beside/calls.rs");

    /// Nothing is computed of the members of such sets.
    fn computed(_: &mut Random, [p, _]: [&Set; 2], [u, _]: [&Model; 2]) -> (&'static str, Option<(Set, Model)>) {
        ("a copy", Some((p.clone(), u.clone())))
    }
}
