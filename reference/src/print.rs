//! The statements as lines of text.

use std::fmt::Write;

use crate::day::{Day, Period};
use crate::money::{self, Bill, Totals};

/// The statements of all periods and the total line.
pub fn whole_day(day: &Day) -> String {
    let mut text = String::new();
    let mut totals = Totals::default();
    for (number, period) in day.periods.iter().enumerate() {
        let bill = money::bill(day, period);
        statement(&mut text, number, period, &bill).expect("a string takes every line");
        totals.add(period, &bill);
    }
    // The rules promise both; where they fail, the program itself is wrong.
    assert_eq!(totals.fees, totals.charges, "fees and charges differ");
    assert_eq!(
        totals.penalties, totals.refunds,
        "penalties and refunds differ"
    );
    let Totals {
        fees,
        charges,
        penalties,
        refunds,
    } = totals;
    text + &format!("T {fees} {charges} {penalties} {refunds}\n")
}

fn statement(text: &mut String, number: usize, period: &Period, bill: &Bill) -> std::fmt::Result {
    for (round, outcome) in period.outcomes.iter().enumerate() {
        let Some(outcome) = outcome.as_ref().filter(|outcome| outcome.wanted > 0) else {
            continue;
        };
        write!(
            text,
            "C {number} {round} {} {} ",
            outcome.wanted, outcome.brought
        )?;
        match outcome.price {
            Some(price) => writeln!(text, "{}", 10 * price)?,
            None => writeln!(text, "-")?,
        }
        let price = outcome.price.unwrap_or(0);
        for &(seller, call) in outcome.calls.iter().filter(|(_, call)| *call > 0) {
            let fee = money::cost(price, call);
            writeln!(text, "S {number} {round} {seller} {call} {fee}")?;
        }
    }
    for (area, sums) in bill
        .areas
        .iter()
        .enumerate()
        .filter(|(_, sums)| sums.charge > 0)
    {
        let (charge, users, uncarried) = (sums.charge, sums.users, sums.uncarried);
        writeln!(text, "A {number} {area} {charge} {users} {uncarried}")?;
    }
    for (plant, charge) in bill.plants.iter().filter(|(_, charge)| **charge > 0) {
        writeln!(text, "W {number} {plant} {charge}")?;
    }
    for (unit, sums) in &bill.units {
        if sums.penalty > 0 || sums.refund > 0 {
            writeln!(text, "U {number} {unit} {} {}", sums.penalty, sums.refund)?;
        }
    }
    for (area, sums) in bill.areas.iter().enumerate() {
        if sums.uncarried_refund > 0 {
            writeln!(text, "N {number} {area} {}", sums.uncarried_refund)?;
        }
    }
    Ok(())
}
