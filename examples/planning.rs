//! Plans the multiplicities of a tag, checks the plan and lists it; another plan is refused.

use kv::{check_plan, cost_and_bound, list_of_plan, plan, Refusal, Sizes, LIMIT, SYMBOLS};

const SIZES: Sizes = Sizes { n: 6, k: 2 };
const STEPS: usize = 12;
/// What the camera gives: of each mark the symbol that it looks like, and one that lies beneath.
const MARKS: [[(usize, u16); 2]; SIZES.n] = [
    [(1, 3600), (4, 400)],
    [(1, 3000), (2, 1000)],
    [(1, 2500), (4, 1500)],
    [(5, 2100), (1, 1900)],
    [(7, 2100), (1, 1900)],
    [(1, 2400), (6, 1200)],
];

type Reliabilities = [u16; SYMBOLS * SIZES.n];

fn photographed() -> Reliabilities {
    let mut reliabilities = [0; SYMBOLS * SIZES.n];
    for (position, seen) in MARKS.into_iter().enumerate() {
        for (symbol, reliability) in seen {
            reliabilities[SYMBOLS * position + symbol] = reliability;
        }
    }
    reliabilities
}

/// Of each mark the symbols that the plan has, and how often each was raised.
fn print_plan(plan: &[u8], steps: usize) -> Result<(), Refusal> {
    println!("steps {steps}, cost {}", cost_and_bound(SIZES, plan)?.cost);
    for (position, column) in plan.chunks(SYMBOLS).enumerate() {
        let raised = column.iter().enumerate().filter(|(_, &entry)| entry > 0);
        let raised = raised.map(|(symbol, entry)| format!(" {symbol:x} {entry}"));
        println!("mark {position}:{}", raised.collect::<String>());
    }
    Ok(())
}

fn print_list(reliabilities: &Reliabilities, plan: &[u8]) {
    match list_of_plan(SIZES, LIMIT, STEPS, reliabilities, plan) {
        Err(refusal) => println!("refused {} at {}", refusal.number(), refusal.place()),
        Ok(listed) => {
            println!("listed {}", listed.rows.len());
            for row in listed.rows {
                let message = row.message;
                println!(
                    "score {} message {:x}{:x}",
                    row.score, message[0], message[1]
                );
            }
        }
    }
}

fn main() -> Result<(), Refusal> {
    let reliabilities = photographed();
    let mut plan = plan(SIZES.n, STEPS, &reliabilities)?.entries;
    let steps = check_plan(SIZES.n, STEPS, &reliabilities, &plan)?;
    print_plan(&plan, steps)?;
    print_list(&reliabilities, &plan);
    plan[SYMBOLS * 3 + 1] += 1;
    print_list(&reliabilities, &plan);
    Ok(())
}
