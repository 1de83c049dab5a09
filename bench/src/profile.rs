//! Calls without a clock, for a program that counts instructions: batches of
//! one case, by one agent.

use crate::{cases, Agent, Case, Independent, Proved};

fn batches<A: Agent>(case: &Case, count: usize) {
    let mut host = case.host::<A>();
    let saved = host.state;
    let messages = case.messages();
    for _ in 0..count {
        case.batch(&mut host, &messages, &mut []);
        host.state = saved;
    }
}

/// `AGENT NAME COUNT`: an agent, a case by its name, and how many batches.
pub fn run(words: &[String]) -> Result<(), String> {
    let [agent, name, count] = words else {
        return Err("usage: bench proved|independent NAME BATCHES".into());
    };
    let cases = cases();
    let case = cases.iter().find(|case| case.name == *name);
    let case = case.ok_or_else(|| format!("no case has the name {name}"))?;
    let count = count.parse().map_err(|_| format!("{count} is no count"))?;
    match agent.as_str() {
        "proved" => batches::<Proved>(case, count),
        "independent" => batches::<Independent>(case, count),
        _ => return Err(format!("{agent} is no agent")),
    }
    Ok(())
}
