//! Steps as programs write them: keys in the order of the format, no spaces, no escapes. Any other is left to `reading`.

use crate::names::{bit, Action, Bits, Call, Decision, Events, Flags, Named, Options, Request, Signals, LAST_SIGNAL};
use crate::rows::Rule;
use crate::scanning::Scanner;
use crate::steps::{Act, Step, Which, MOST_RULES};

/// Adds the step, with the place of its user. `None` if it is written in any other way.
///
/// Each kind of step is added apart: if all were a value first, most of the time would go into its making.
#[inline(always)]
pub fn step(text: &mut Scanner<'_>, rules: &mut Vec<Rule>, add: impl FnOnce(u8, Step)) -> Option<()> {
    text.take("{\"user\":10")?;
    let user = user_place(1000 + text.two_digits()?)?;
    text.take(",\"op\":\"")?;
    let add = |step| add(user, step);
    if text.skips("turn\",\"lwp\":") {
        turn(text, add)
    } else if text.skips("spawn\"}") {
        add(Step::Spawn);
        Some(())
    } else if text.skips("ptrace\",\"caller\":") {
        ptrace(text, add)
    } else if text.skips("wait4\",\"caller\":") {
        wait(text, add)
    } else {
        other(text, rules, add)
    }
}

/// The place of a user among all, if there is such a user.
#[inline]
pub fn user_place(user: u32) -> Option<u8> {
    let place = user.wrapping_sub(1001);
    (place < 64).then_some(place as u8)
}

#[inline(always)]
fn turn(text: &mut Scanner<'_>, add: impl FnOnce(Step)) -> Option<()> {
    let lwp = text.digits()?;
    let add = |act| add(Step::Turn { lwp, act });
    text.take(",\"act\":\"")?;
    if text.skips("enter\",\"call\":\"") {
        enter(text, |call| add(Act::Enter(call)))?;
    } else if text.skips("leave\"}") {
        add(Act::Leave);
    } else if text.skips("compute\"}") {
        add(Act::Compute);
    } else if text.skips("raise\",\"signal\":") {
        let signal = text.digits()?;
        text.take("}")?;
        add(Act::Raise(signal));
    } else {
        text.take("block\",\"set\":[")?;
        let set = signals(text)?;
        text.take("}")?;
        add(Act::Block(set));
    }
    Some(())
}

#[inline(always)]
fn enter(text: &mut Scanner<'_>, add: impl FnOnce(Call)) -> Option<()> {
    let call = Call::next(text)?;
    if !matches!(call, Call::Exit(_) | Call::Other(_)) {
        text.take("}")?;
        add(call);
        return Some(());
    }
    text.take(",\"code\":")?;
    let call = call.with_code(text.digits()?)?;
    text.take("}")?;
    add(call);
    Some(())
}

#[inline(always)]
fn ptrace(text: &mut Scanner<'_>, add: impl FnOnce(Step)) -> Option<()> {
    let caller = text.digits()?;
    text.take(",\"request\":\"")?;
    let request = Request::next(text)?;
    let (mut target, mut data) = (0, 0);
    if request != Request::TraceMe {
        text.take(",\"target\":")?;
        target = text.digits()?;
        if request == Request::SetEventMask {
            text.take(",\"mask\":[")?;
            data = bits::<Events>(text)?;
        } else if text.skips(",\"data\":") {
            data = text.digits()?;
        }
    }
    text.take("}")?;
    add(Step::Ptrace {
        caller,
        request,
        target,
        data,
    });
    Some(())
}

#[inline(always)]
fn wait(text: &mut Scanner<'_>, add: impl FnOnce(Step)) -> Option<()> {
    let caller = text.digits()?;
    let which = which(text)?;
    let options = if text.skips(",\"options\":[") {
        bits::<Options>(text)? as u8
    } else {
        0
    };
    text.take("}")?;
    add(Step::Wait { caller, which, options });
    Some(())
}

#[inline(always)]
fn which(text: &mut Scanner<'_>) -> Option<Which> {
    text.take(",\"which\":")?;
    if text.skips("-1") {
        Some(-1)
    } else {
        Some(text.digits()? as Which)
    }
}

/// A step of the ops that are used less.
#[inline(always)]
fn other(text: &mut Scanner<'_>, rules: &mut Vec<Rule>, add: impl FnOnce(Step)) -> Option<()> {
    let step = if text.skips("kill\",\"caller\":") {
        let caller = text.digits()?;
        let which = which(text)?;
        text.take(",\"signal\":")?;
        let signal = text.digits()?;
        Step::Kill { caller, which, signal }
    } else if text.skips("handle\",\"caller\":") {
        Step::Handle { caller: text.digits()? }
    } else if text.skips("list\",\"caller\":") {
        Step::List { caller: text.digits()? }
    } else if text.skips("install\",\"caller\":") {
        let caller = text.digits()?;
        text.take(",\"rules\":[")?;
        let (first, end) = policy(text, rules)?;
        Step::Install { caller, first, end }
    } else {
        text.take("sigaction\",\"caller\":")?;
        let caller = text.digits()?;
        text.take(",\"signal\":")?;
        let signal = text.digits()?;
        text.take(",\"action\":\"")?;
        let action = Action::next(text)?;
        Step::Sigaction { caller, signal, action }
    };
    text.take("}")?;
    add(step);
    Some(())
}

/// The rest of an array of names, as the bits that they name.
#[inline(always)]
fn bits<B: Bits>(text: &mut Scanner<'_>) -> Option<u32> {
    let mut set = 0;
    if text.skips("]") {
        return Some(set);
    }
    loop {
        text.take("\"")?;
        set |= B::next(text)?.bits();
        if !text.skips(",") {
            break;
        }
    }
    text.take("]")?;
    Some(set)
}

#[inline(always)]
fn signals(text: &mut Scanner<'_>) -> Option<Signals> {
    let mut set = 0;
    if text.skips("]") {
        return Some(set);
    }
    loop {
        set |= bit(a_signal(text.small_number()?)?);
        if !text.skips(",") {
            break;
        }
    }
    text.take("]")?;
    Some(set)
}

#[inline]
pub fn a_signal(number: u32) -> Option<u8> {
    (1..=LAST_SIGNAL).contains(&number).then_some(number as u8)
}

/// The rest of an array of rules: where they begin and end among all.
#[inline(always)]
fn policy(text: &mut Scanner<'_>, rules: &mut Vec<Rule>) -> Option<(u32, u32)> {
    let first = rules.len();
    if !text.skips("]") {
        loop {
            rules.push(rule(text)?);
            if !text.skips(",") {
                break;
            }
        }
        text.take("]")?;
    }
    (rules.len() - first <= MOST_RULES).then_some((first as u32, rules.len() as u32))
}

#[inline(always)]
fn rule(text: &mut Scanner<'_>) -> Option<Rule> {
    let (mut signal, mut flags, mut pass) = (0, 0, 0);
    text.take("{\"")?;
    if text.skips("signal\":") {
        signal = a_signal(text.small_number()?)?;
        text.take(",\"")?;
    }
    if text.skips("flags\":[") {
        flags = bits::<Flags>(text)? as u16;
        text.take(",\"")?;
    }
    text.take("decision\":\"")?;
    let decision = Decision::next(text)?;
    if matches!(decision, Decision::Continue | Decision::Detach) && text.skips(",\"pass\":") {
        pass = text.small_number()?;
    }
    text.take("}")?;
    (pass <= LAST_SIGNAL).then_some(Rule {
        signal,
        flags,
        decision,
        pass: pass as u8,
    })
}
