//! P1 to P10 of the specification, "Small herds, W 8".

use model::index::Index;
use model::leaf_list::{leaf_list, show, Herd};
use model::pages::{Page, Row};
use model::sound::sound;
use model::table::Tables;

const P4: [(u64, u32); 3] = [(0b1010_1010, 1), (0b1010_1100, 2), (0, 3)];

/// A small herd's name, its keys and records, and its leaf list.
type SmallHerd = (&'static str, Vec<(u64, u32)>, &'static str);

fn small_herds() -> Vec<SmallHerd> {
    let p3 = "(1,-)(3,-)(5,-)(6,1)(0,2)";
    let p9 = "(1,-)(2,-)(3,-)(4,-)(5,-)(6,-)(7,-)(8,1)(0,2)";
    let p10 = "(2,3)(1,4)(3,-)(5,-)(6,1)(0,2)";
    vec![
        ("P1", vec![], "(0,-)"),
        ("P2", P4[..1].to_vec(), "(0,1)"),
        ("P3", P4[..2].to_vec(), p3),
        ("P4", P4.to_vec(), "(1,3)(3,-)(5,-)(6,1)(0,2)"),
        ("P5", vec![P4[0], P4[2]], "(1,3)(0,1)"),
        ("P6", vec![P4[0], P4[1]], p3),
        ("P7", vec![(0, 1), (1, 2)], "(8,1)(0,2)"),
        (
            "P8",
            vec![(0, 1), (0b0010_0000, 2), (0b0100_0110, 3)],
            "(3,1)(2,2)(0,3)",
        ),
        ("P9", vec![(0b1111_1110, 1), (0b1111_1111, 2)], p9),
        ("P10", vec![P4[0], P4[1], P4[2], (0b0100_0000, 4)], p10),
    ]
}

/// The index after the herd is put on in this order.
fn index_of(herd: &[(u64, u32)], entries: usize) -> Index {
    let mut index = Index::empty(8, entries, 100, 5);
    for &(key, record) in herd {
        assert_eq!(index.on(key, u64::from(record)), Ok(()));
    }
    assert_eq!(sound(Tables::of(&index).lent()), Ok(()));
    index
}

/// Every order of the keys.
fn orders(herd: &[(u64, u32)]) -> Vec<Vec<(u64, u32)>> {
    if herd.is_empty() {
        return vec![vec![]];
    }
    let mut all = Vec::new();
    for first in 0..herd.len() {
        let mut rest = herd.to_vec();
        let key = rest.remove(first);
        for mut order in orders(&rest) {
            order.push(key);
            all.push(order);
        }
    }
    all
}

#[test]
fn the_definition_gives_the_printed_lists() {
    for (name, herd, list) in small_herds() {
        let herd: Herd = herd.into_iter().collect();
        assert_eq!(show(&leaf_list(8, &herd)), list, "{name}");
    }
}

#[test]
fn putting_on_gives_the_printed_lists_in_every_order_and_page_size() {
    for (name, herd, list) in small_herds() {
        for order in orders(&herd) {
            for entries in [2, 3, 5, 255] {
                let leaves = index_of(&order, entries).root.leaves();
                assert_eq!(show(&leaves), list, "{name}, E {entries}, {order:?}");
            }
        }
    }
}

#[test]
fn taking_off_gives_p5_and_p6() {
    for entries in [2, 3, 5, 255] {
        let mut p5 = index_of(&P4, entries);
        assert_eq!(p5.off(0b1010_1100), Ok(()));
        assert_eq!(show(&p5.root.leaves()), "(1,3)(0,1)", "E {entries}");
        let mut p6 = index_of(&P4, entries);
        assert_eq!(p6.off(0), Ok(()));
        assert_eq!(
            show(&p6.root.leaves()),
            "(1,-)(3,-)(5,-)(6,1)(0,2)",
            "E {entries}"
        );
    }
}

#[test]
fn taking_all_off_gives_the_empty_herd_in_one_page() {
    for (name, herd, _) in small_herds() {
        let mut index = index_of(&herd, 2);
        for (key, _) in herd {
            assert_eq!(index.off(key), Ok(()), "{name}");
        }
        assert_eq!(show(&index.root.leaves()), "(0,-)", "{name}");
        assert_eq!(index.root.pages().len(), 1, "{name}");
    }
}

#[test]
fn p10_stands_in_two_pages_under_a_root() {
    let (_, herd, _) = small_herds().remove(9);
    let index = index_of(&herd, 5);
    let Row::Children(pages) = &index.root.row else {
        panic!("the root stands on level 0")
    };
    let lists: Vec<String> = pages.iter().map(|page| show(&page.leaves())).collect();
    assert_eq!(lists, ["(2,3)(1,4)", "(3,-)(5,-)(6,1)(0,2)"]);
    assert_eq!(index.root.depths(), [1, 0]);
    assert_eq!(pages.iter().map(Page::level).collect::<Vec<_>>(), [0, 0]);
}

#[test]
fn p10_in_bytes() {
    let (_, herd, _) = small_herds().remove(9);
    let tables = Tables::of(&index_of(&herd, 5));
    let root_number = tables.index[5];
    let header = [8, 5, 0, 100, 0, root_number, 0, 4, 0, 0, 0, 0, 0, 0, 0, 0];
    let left = [0, 2, 2, 0, 3, 1, 0, 4, 0, 0, 0, 0, 0, 0, 0, 0, 0];
    let right = [0, 4, 3, 255, 255, 5, 255, 255, 6, 0, 1, 0, 0, 2, 0, 0, 0];
    assert_eq!(tables.index[..16], header);
    assert_eq!(tables.keys, [0, 0b1010_1010, 0b1010_1100, 0, 0b0100_0000]);
    assert_eq!(tables.used, [0, 1, 1, 1, 1]);
    let page = |number: usize| &tables.index[16 + 17 * number..16 + 17 * (number + 1)];
    let root = page(usize::from(root_number));
    assert_eq!(root[..3], [1, 2, 1]);
    assert_eq!(root[5], 0);
    assert_eq!(page(usize::from(root[4])), left);
    assert_eq!(page(usize::from(root[7])), right);
    assert!(tables.index[16 + 17 * 3..].iter().all(|&byte| byte == 0));
}
