//! What a program means, from its tree and with no table: document 01, "What a program means". A point of a program says what is
//! left to run; the runs are followed over the set of points, cells and counters.

use crate::judge::Verdict;
use crate::rule::{Block, Condition, Program, Statement, Symbol};
use std::collections::HashSet;

/// The way down from the outermost block to a statement: at each level which block it is of the statement above (0 for the
/// program's own) and which statement of that block. A block's end is the number after its last statement.
type Point = Vec<(u16, u16)>;

#[derive(Clone, PartialEq, Eq, Hash)]
struct Configuration {
    point: Point,
    cell: usize,
    counter: usize,
}

/// The blocks of a statement, in the text's order.
fn blocks(statement: &Statement) -> Vec<&Block> {
    match statement {
        Statement::If(_, then, otherwise) => vec![then, otherwise],
        Statement::While(_, block) | Statement::WhileChoose(block) => vec![block],
        Statement::Branch(arms) => arms.iter().collect(),
        _ => Vec::new(),
    }
}

/// The statement at a point; nothing at a block's end, and nothing above the program's own block.
fn statement_at<'p>(program: &'p Program, point: &[(u16, u16)]) -> Option<&'p Statement> {
    let mut block = &program.body;
    for (level, &(_, index)) in point.iter().enumerate() {
        let statement = block.get(usize::from(index))?;
        match point.get(level + 1) {
            None => return Some(statement),
            Some(&(which, _)) => block = blocks(statement)[usize::from(which)],
        }
    }
    None
}

/// The point behind the statement at `point`.
fn behind(mut point: Point) -> Point {
    point.last_mut().unwrap().1 += 1;
    point
}

/// The start of a block of the statement at `point`.
fn inside(mut point: Point, which: usize) -> Point {
    point.push((which as u16, 0));
    point
}

fn symbol(word: &[u8], cell: usize) -> Symbol {
    if cell == 0 {
        Symbol::LeftMark
    } else if cell == word.len() + 1 {
        Symbol::RightMark
    } else {
        Symbol::Letter(word[cell - 1])
    }
}

fn holds(condition: &Condition, read: Symbol, counter: usize) -> bool {
    match condition {
        Condition::Read { equal, symbol } => (*symbol == read) == *equal,
        Condition::Counter { zero } => (counter == 0) == *zero,
        Condition::Not(a) => !holds(a, read, counter),
        Condition::And(a, b) => holds(a, read, counter) && holds(b, read, counter),
        Condition::Or(a, b) => holds(a, read, counter) || holds(b, read, counter),
    }
}

/// What a configuration does next.
enum Next {
    Accepts,
    PassesLimit,
    /// Where the run can go on; nowhere if it has ended.
    Goes(Vec<Configuration>),
}

fn next(program: &Program, word: &[u8], limit: usize, at: Configuration) -> Next {
    let Configuration { mut point, cell, counter } = at;
    let Some(statement) = statement_at(program, &point) else {
        // a block's end: the program's own ends the run, a loop's goes back to the loop, any other goes on behind its statement
        point.pop();
        let Some(owner) = statement_at(program, &point) else { return Next::Goes(Vec::new()) };
        let back = matches!(owner, Statement::While(..) | Statement::WhileChoose(_));
        let point = if back { point } else { behind(point) };
        return Next::Goes(vec![Configuration { point, cell, counter }]);
    };
    let at_cell = |cell, point| Next::Goes(vec![Configuration { point, cell, counter }]);
    match statement {
        Statement::Accept => Next::Accepts,
        Statement::Reject => Next::Goes(Vec::new()),
        Statement::Move(by) => {
            let cell = (cell as i64 + by).max(0).min(word.len() as i64 + 1);
            at_cell(cell as usize, behind(point))
        }
        Statement::GotoLeft => at_cell(0, behind(point)),
        Statement::GotoRight => at_cell(word.len() + 1, behind(point)),
        Statement::Change(by) => {
            let changed = counter as i64 + by;
            if changed < 0 && !program.decr_on_zero {
                return Next::Goes(Vec::new());
            }
            let counter = changed.max(0) as usize;
            if counter > limit {
                return Next::PassesLimit;
            }
            Next::Goes(vec![Configuration { point: behind(point), cell, counter }])
        }
        Statement::If(condition, ..) => {
            let which = if holds(condition, symbol(word, cell), counter) { 0 } else { 1 };
            at_cell(cell, inside(point, which))
        }
        Statement::While(condition, _) => {
            let goes_round = holds(condition, symbol(word, cell), counter);
            at_cell(cell, if goes_round { inside(point, 0) } else { behind(point) })
        }
        Statement::WhileChoose(_) => {
            let choices = [inside(point.clone(), 0), behind(point)];
            Next::Goes(choices.map(|point| Configuration { point, cell, counter }).into())
        }
        Statement::Branch(arms) => {
            let choices = 0..arms.len();
            Next::Goes(choices.map(|a| Configuration { point: inside(point.clone(), a), cell, counter }).collect())
        }
    }
}

/// Yes if some run within the limit accepts; if none does, limit met if some run comes to a statement that would pass the limit,
/// else no.
pub fn interpret(program: &Program, word: &[u8], limit: usize) -> Verdict {
    let start = Configuration { point: vec![(0, 0)], cell: 0, counter: 0 };
    let mut seen = HashSet::from([start.clone()]);
    let mut waiting = vec![start];
    let mut verdict = Verdict::No;
    while let Some(at) = waiting.pop() {
        match next(program, word, limit, at) {
            Next::Accepts => return Verdict::Yes,
            Next::PassesLimit => verdict = Verdict::LimitMet,
            Next::Goes(on) => {
                for configuration in on {
                    if seen.insert(configuration.clone()) {
                        waiting.push(configuration);
                    }
                }
            }
        }
    }
    verdict
}
