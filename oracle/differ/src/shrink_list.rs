//! Makes a failing list of calls small: calls are dropped, then those left are made plainer, as long
//! as the list still fails.

use cases::call::{Call, Length};
use cases::damage::{Damage, Patch};
use cases::key::Key;

/// `fails` gives the place of the first call that is unlike.
pub fn shrink(mut calls: Vec<Call>, fails: impl Fn(&[Call]) -> Option<usize>) -> Vec<Call> {
    let keep = |calls: &mut Vec<Call>, tried: Vec<Call>| match fails(&tried) {
        Some(at) => {
            *calls = tried;
            calls.truncate(at + 1);
            true
        }
        None => false,
    };
    let whole = calls.clone();
    keep(&mut calls, whole);
    loop {
        let mut smaller = false;
        let mut size = calls.len().div_ceil(2);
        while size > 0 {
            let mut at = 0;
            while at < calls.len() {
                let mut tried = calls.clone();
                tried.drain(at..(at + size).min(calls.len()));
                if keep(&mut calls, tried) {
                    smaller = true;
                } else {
                    at += size;
                }
            }
            size /= 2;
        }
        for at in 0..calls.len() {
            // A plainer call may make the list end sooner.
            while let Some(call) = calls.get(at).cloned() {
                let plainer = plainer(&call).into_iter().any(|candidate| {
                    let mut tried = calls.clone();
                    tried[at] = candidate;
                    keep(&mut calls, tried)
                });
                if !plainer {
                    break;
                }
                smaller = true;
            }
        }
        if !smaller {
            return calls;
        }
    }
}

/// The lower, the plainer. Every accepted step lowers it, so shrinking ends.
fn weight(call: &Call) -> u32 {
    let plain = Call::plain(call.name);
    let ones = |bytes: &[u8]| bytes.iter().map(|byte| byte.count_ones()).sum::<u32>();
    let patches = |patches: &[Patch]| {
        let patches = patches.iter();
        patches
            .map(|(_, bytes)| 1 + bytes.len() as u32)
            .sum::<u32>()
    };
    let damage = call.damage.as_ref().map_or(0, |damage| {
        1 + u32::from(damage.length.is_some()) + patches(&damage.patches)
    });
    damage
        + patches(&call.overwrite)
        + ones(&call.given)
        + ones(&call.key.fields())
        + call.number.count_ones()
        + call.enabled.count_ones()
        + u32::from(call.own_mask.is_some())
        + 64 * u32::from(call.given.len() != plain.given.len())
        + 64 * u32::from(call.lent != Length::Right)
}

/// The call with something changed.
fn with(call: &Call, change: impl FnOnce(&mut Call)) -> Call {
    let mut call = call.clone();
    change(&mut call);
    call
}

fn plainer(call: &Call) -> Vec<Call> {
    let plain = Call::plain(call.name);
    let mut calls = vec![
        with(call, |call| call.damage = None),
        with(call, |call| call.overwrite.clear()),
        with(call, |call| call.lent = Length::Right),
        with(call, |call| call.given.clone_from(&plain.given)),
        with(call, |call| call.number = 0),
        with(call, |call| call.enabled = u32::from(call.enabled != 0)),
        with(call, |call| call.enabled = 0),
        with(call, |call| call.key = plain.key),
        with(call, |call| call.own_mask = None),
    ];
    for at in 0..call.given.len().div_ceil(4) {
        let end = call.given.len().min(4 * at + 4);
        calls.push(with(call, |call| call.given[4 * at..end].fill(0)));
    }
    for bit in 0..32 {
        calls.push(with(call, |call| call.number &= !(1 << bit)));
    }
    for (at, field) in call.key.fields().into_iter().enumerate() {
        let fewer = (0..8).map(|bit| field & !(1 << bit));
        for number in [0, 1].into_iter().chain(fewer) {
            let mut fields = call.key.fields();
            fields[at] = number;
            calls.push(with(call, |call| call.key = Key::of(fields)));
        }
    }
    for overwrite in fewer_patches(&call.overwrite) {
        calls.push(with(call, |call| call.overwrite = overwrite));
    }
    if let Some(damage) = &call.damage {
        let length = damage.length;
        for patches in fewer_patches(&damage.patches) {
            calls.push(with(call, |call| {
                call.damage = Some(Damage { patches, length });
            }));
        }
        let patches = damage.patches.clone();
        calls.push(with(call, |call| {
            call.damage = Some(Damage {
                patches,
                length: None,
            });
        }));
    }
    calls.retain(|candidate| weight(candidate) < weight(call));
    calls
}

/// The patches without one of them, or with half of one.
fn fewer_patches(patches: &[Patch]) -> Vec<Vec<Patch>> {
    let mut fewer = Vec::new();
    for (i, (at, bytes)) in patches.iter().enumerate() {
        let without = [&patches[..i], &patches[i + 1..]].concat();
        // Whole words, as long as there are some.
        let middle = match bytes.len() / 2 {
            half if half >= 4 => half / 4 * 4,
            half => half,
        };
        for half in [(*at, &bytes[..middle]), (at + middle, &bytes[middle..])] {
            let mut patches = patches.to_vec();
            patches[i] = (half.0, half.1.to_vec());
            fewer.push(patches);
        }
        fewer.push(without);
    }
    fewer
}
