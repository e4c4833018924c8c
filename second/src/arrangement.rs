//! The check: whether a table of sets is an arrangement for a description, rule by rule.

use crate::description::Description;
use crate::relations::{composition, converse, has, lies_within, A, E, S};
use crate::table::Table;

/// Whether the table is an arrangement: single relations, and rules 1 to 7.
pub fn is_arrangement(description: &Description, table: &Table) -> bool {
    table.is_all_single()
        && rule_1(table)
        && rule_2(table)
        && rule_3(table)
        && rule_4(description, table)
        && rule_5(description, table)
        && rule_6(description, table)
        && rule_7(description, table)
}

/// (p, p) is E.
fn rule_1(table: &Table) -> bool {
    (0..table.boards).all(|p| table.at(p, p) == E)
}

/// (q, p) is the converse of (p, q).
fn rule_2(table: &Table) -> bool {
    let boards = table.boards;
    (0..boards).all(|p| (0..boards).all(|q| table.at(q, p) == converse(table.at(p, q))))
}

/// (p, r) is in the composition of (p, q) with (q, r), for all p, q, r, equal ones too.
fn rule_3(table: &Table) -> bool {
    for p in 0..table.boards {
        for q in 0..table.boards {
            for r in 0..table.boards {
                if !lies_within(table.at(p, r), composition(table.at(p, q), table.at(q, r))) {
                    return false;
                }
            }
        }
    }
    true
}

/// Each relation line's cell (p, q) is in its set.
fn rule_4(description: &Description, table: &Table) -> bool {
    description.relation_lines.iter().all(|line| lies_within(table.at(line.p, line.q), line.set))
}

/// For a kind line on p with ways y1 to yn: (p, yi) is A, and (yi, yj) is S for i different from j.
fn rule_5(description: &Description, table: &Table) -> bool {
    for line in &description.kind_lines {
        for (i, &way) in line.ways.iter().enumerate() {
            if table.at(line.p, way) != A {
                return false;
            }
            for (j, &other) in line.ways.iter().enumerate() {
                if i != j && table.at(way, other) != S {
                    return false;
                }
            }
        }
    }
    true
}

/// For such a line and every board z: if (p, z) is A, then some (yi, z) is E or A.
fn rule_6(description: &Description, table: &Table) -> bool {
    for line in &description.kind_lines {
        for z in 0..table.boards {
            let fed = line.ways.iter().any(|&way| has(table.at(way, z), E | A));
            if table.at(line.p, z) == A && !fed {
                return false;
            }
        }
    }
    true
}

/// For two kind lines on p and q: if (p, q) is E, then code and number of ways agree and
/// ways in the same position are E.
fn rule_7(description: &Description, table: &Table) -> bool {
    for first in &description.kind_lines {
        for second in &description.kind_lines {
            let agree = first.code == second.code && first.ways.len() == second.ways.len();
            let same_ways = first.ways.iter().zip(&second.ways).all(|(&way, &other)| table.at(way, other) == E);
            if table.at(first.p, second.p) == E && !(agree && same_ways) {
                return false;
            }
        }
    }
    true
}
