//! What each row becomes in the mock, right or wrong in one way.

use crate::defects::{defect, is};
use crate::mock::{cut, fits, Item, NULL};
use crate::model::Width;

pub fn reverse(mut items: Vec<Item>) -> Vec<Item> {
    let valid: Vec<bool> = items.iter().map(|item| item.valid).collect();
    if !(items.len() == 2 && is("reverse-of-two-unchanged")) {
        items.reverse();
    }
    if is("reverse-leaves-bits") {
        items.iter_mut().zip(valid).for_each(|(item, valid)| item.valid = valid);
    }
    items
}

pub fn distinct(mut items: Vec<Item>, seen: &mut Vec<Item>) -> Vec<Item> {
    if is("distinct-keeps-last") {
        items.reverse();
    }
    let mut kept: Vec<Item> = Vec::new();
    for item in items {
        let earlier = if is("distinct-neighbours-only") { kept.len().max(1) - 1 } else { 0 };
        let known = kept[earlier..].iter().any(|other| other.same(item))
            || is("distinct-drops-nulls") && !item.valid
            || is("distinct-over-all-rows") && seen.iter().any(|other| other.same(item));
        if !known {
            kept.push(item);
        }
    }
    if is("distinct-over-all-rows") {
        seen.extend(&kept);
    }
    if is("distinct-keeps-last") {
        kept.reverse();
    }
    kept
}

pub fn pop(mut items: Vec<Item>, front: bool) -> Vec<Item> {
    if items.is_empty() || items.len() == 1 && is("pop-keeps-single-element") {
        return items;
    }
    items.remove(if front { 0 } else { items.len() - 1 });
    items
}

pub fn place_of(length: i64, index: i64) -> Option<usize> {
    let place = match index {
        0 if is("index-0-is-first") => 0,
        0 => -1,
        -1 if is("index-minus-1-is-last-but-one") => length - 2,
        _ if index > 0 => index - 1,
        _ if index < -length && is("index-below-minus-length-is-first") => 0,
        _ => length + index,
    };
    usize::try_from(place).ok().filter(|_| place < length)
}

pub fn union(left: Vec<Item>, right: Vec<Item>) -> Vec<Item> {
    let without_nulls = |items: Vec<Item>| -> Vec<Item> {
        items.into_iter().filter(|item| item.valid || !is("union-drops-nulls")).collect()
    };
    let (left, right) = (without_nulls(left), without_nulls(right));
    let new = |items: &[Item]| -> Vec<Item> {
        right.iter().filter(|item| !items.iter().any(|one| one.same(**item))).copied().collect()
    };
    match defect() {
        "union-concatenates" => [left, right].concat(),
        "union-right-first" => distinct([right, left].concat(), &mut Vec::new()),
        "union-left-repeats-kept" => {
            let right = distinct(new(&left), &mut Vec::new());
            [left, right].concat()
        }
        "union-right-repeats-kept" => {
            let left = distinct(left, &mut Vec::new());
            let right = new(&left);
            [left, right].concat()
        }
        _ => distinct([left, right].concat(), &mut Vec::new()),
    }
}

pub fn intersect(left: Vec<Item>, right: Vec<Item>) -> Vec<Item> {
    let lengths = |items: &[Item]| distinct(items.to_vec(), &mut Vec::new()).len();
    let walks_right = match defect() {
        "intersect-left-walked" => false,
        "intersect-right-on-equal-lengths" => right.len() >= left.len(),
        "intersect-shorter-walked" => right.len() < left.len(),
        "intersect-longer-by-distinct" => lengths(&right) > lengths(&left),
        _ => right.len() > left.len(),
    };
    let (walked, other) = if walks_right { (right, left) } else { (left, right) };
    let is_common = |item: &Item| {
        let common = other.iter().any(|one| one.same(*item));
        (common != is("intersect-keeps-the-others"))
            && (item.valid || !is("intersect-nulls-not-common"))
    };
    let common: Vec<Item> = walked.into_iter().filter(is_common).collect();
    if is("intersect-repeats-kept") {
        return common;
    }
    distinct(common, &mut Vec::new())
}

pub fn is_beyond(width: Width, bound: i64) -> bool {
    match defect() {
        "bounds-wrap-to-32-bits" => false,
        "bound-smallest-refused" => bound <= -2147483648 || bound > 2147483647,
        "bound-largest-refused" => bound < -2147483648 || bound >= 2147483647,
        _ => !fits(width, bound, "large-4-given"),
    }
}

fn from_place(length: i64, from: i64) -> i64 {
    match from {
        _ if is("bounds-counted-from-0") && from > 0 => from,
        0 if is("from-0-outside") => -1,
        0 => 0,
        1.. if from > length && is("from-past-end-is-last") => length - 1,
        1.. => from - 1,
        _ if from < -length && is("from-below-minus-length-outside") => -1,
        _ => (length + from + i64::from(is("negative-from-one-late"))).max(0),
    }
}

fn to_place(length: i64, to: i64) -> i64 {
    let last = match to {
        0 if is("to-0-is-first") => 0,
        0 if is("to-0-is-last") => length - 1,
        0 => -1,
        1.. if to > length && is("to-past-end-outside") => length,
        1.. => to.min(length) - 1,
        -1 if is("to-minus-1-excluded") => length - 2,
        _ if to < -length && is("to-below-minus-length-is-first") => 0,
        _ => length + to,
    };
    last - i64::from(is("to-excluded"))
}

pub fn slice(
    items: &[Item],
    from: i64,
    to: i64,
    stride: i64,
    row: usize,
    width: Width,
) -> Result<Vec<Item>, u32> {
    let length = items.len() as i64;
    let is_beyond = |bound: i64| is_beyond(width, bound);
    if items.is_empty() {
        return match defect() {
            "4-over-empty-row" if is_beyond(from) || is_beyond(to) => Err(4),
            "5-over-empty-row" if stride == 0 => Err(5),
            _ => Ok(Vec::new()),
        };
    }
    if stride == 0 && is("stride-0-before-4") {
        return Err(5);
    }
    let outside = |place: i64| place < 0 || place >= length;
    if !(is("4-only-in-first-row") && row > 0) {
        let quiet = is("to-beyond-is-past-the-end")
            || is("to-tested-only-with-from-inside") && outside(from_place(length, from))
            || is("4-only-where-inside") && outside(from_place(length, from));
        if is_beyond(from) && !is("4-only-where-inside") || is_beyond(to) && !quiet {
            return Err(4);
        }
    }
    let wrap = |bound: i64| match defect() {
        "bounds-wrap-to-32-bits" => i64::from(bound as i32),
        _ => cut(width, bound, "large-bounds-cut-to-32-bits"),
    };
    let first = from_place(length, wrap(from));
    let last = to_place(length, wrap(to));
    if stride == 0 && is("stride-0-before-bounds") {
        return Err(5);
    }
    if !fits(width, stride, "large-6-given") && is("stride-size-before-bounds") {
        return Err(6);
    }
    if outside(first) || outside(last) {
        return Ok(Vec::new());
    }
    places(first, last, stride, width)
        .map(|places| places.into_iter().filter_map(|place| items.get(place).copied()).collect())
}

/// The places from one bound to the other, both in the row.
fn places(first: i64, last: i64, stride: i64, width: Width) -> Result<Vec<usize>, u32> {
    let is_beyond = |stride: i64| !fits(width, stride, "large-6-given");
    let mut stride = match (stride, defect()) {
        (0, "stride-0-gives-empty") => return Ok(Vec::new()),
        (0, "stride-0-is-1") => 1,
        (0, _) => return Err(5),
        _ => stride,
    };
    let beyond = match defect() {
        "stride-beyond-accepted" | "stride-wraps-to-32-bits" => false,
        "stride-size-not-for-equal-bounds" => is_beyond(stride) && first != last,
        "stride-smallest-refused" => is_beyond(stride) || stride == -2147483648,
        "stride-largest-refused" => is_beyond(stride) || stride == 2147483647,
        _ => is_beyond(stride),
    };
    if beyond && is("stride-size-before-direction") {
        return Err(6);
    }
    let equal_empty = first == last
        && (stride < 0 && is("equal-bounds-negative-stride-empty")
            || stride > 0 && is("equal-bounds-positive-stride-empty")
            || is("equal-bounds-empty"));
    let against = first < last && stride < 0 || first > last && stride > 0;
    if equal_empty || against && !is("stride-direction-ignored") {
        return Ok(Vec::new());
    }
    if against {
        stride = stride.checked_neg().unwrap_or(i64::MAX);
    }
    if beyond {
        return Err(6);
    }
    if is("stride-wraps-to-32-bits") && i32::try_from(stride).is_err() {
        stride = i64::from(stride as i32);
        stride = if stride == 0 { 1 } else { stride };
    }
    if is("large-strides-cut-to-32-bits") {
        let cut = cut(width, stride, "large-strides-cut-to-32-bits");
        stride = if cut == 0 { stride.signum() } else { cut };
    }
    if is("stride-1-always") {
        stride = stride.signum();
    }
    let mut all = Vec::new();
    let mut place = i128::from(first);
    while i128::from(first.min(last)) <= place && place <= i128::from(first.max(last)) {
        all.push(place as usize);
        place += i128::from(stride);
    }
    let is_last_met = all.last() == Some(&(last as usize));
    match defect() {
        "one-step-too-many" => all.extend(usize::try_from(place).ok()),
        "one-step-too-many-unless-to-is-met" if !is_last_met => {
            all.extend(usize::try_from(place).ok());
        }
        "falling-bounds-give-one-place" if first > last => all.truncate(1),
        "counts-up-where-it-should-count-down" if first > last => {
            let up = |step: usize| first as usize + step * stride.unsigned_abs() as usize;
            all = (0..all.len()).map(up).collect();
        }
        "smallest-stride-gives-none" if stride == -2147483648 => all.clear(),
        "at-most-3999-places" => all.truncate(3999),
        "step-past-largest-refused" if stride > 1 && place > 2147483647 => return Err(6),
        "to-only-by-stride-1" if stride.abs() > 1 && is_last_met => {
            all.pop();
        }
        "last-place-left-out" if all.len() > 1 => {
            all.pop();
        }
        _ => (),
    }
    Ok(all)
}

/// The row cut or filled, to this many elements at most.
pub fn resize(items: Vec<Item>, count: Item, fill: Option<Item>, most: usize) -> Option<Vec<Item>> {
    let Some(count) = count.given() else {
        return is("resize-null-count-keeps-row").then_some(items);
    };
    let count = count.clamp(0, most as i64) as usize + usize::from(is("resize-one-more"));
    let zero = Item { valid: true, number: 0 };
    let fill = match fill {
        Some(fill) if !fill.valid && is("resize-null-fill-gives-null") => return None,
        Some(fill) if !fill.valid && is("resize-null-fill-is-0") => zero,
        Some(fill) if is("resize-null-fill-shows-number") => Item { valid: true, ..fill },
        Some(_) if is("resize-fill-ignored") => NULL,
        Some(fill) => fill,
        None if is("absent-fill-is-0") => zero,
        None => NULL,
    };
    let fill = match items.last() {
        Some(last) if is("resize-fills-with-last") => *last,
        _ => fill,
    };
    let more = count.saturating_sub(items.len());
    let more = if is("resize-never-fills") { 0 } else { more };
    let mut filled = [items.clone(), vec![fill; more]].concat();
    if is("resize-pads-front") {
        filled = [vec![fill; more], items].concat();
    }
    match defect() {
        "resize-never-cuts" => (),
        "resize-cuts-front" => drop(filled.drain(..filled.len().saturating_sub(count))),
        _ => filled.truncate(count),
    }
    Some(filled)
}

/// Which elements match, at most as many as the limit; None for a null limit.
fn matches(items: &[Item], old: Item, limit: Item, used: &mut i64) -> Option<Vec<bool>> {
    let mut left = match (limit.given(), defect()) {
        (None, "limit-null-is-all") => i64::MAX,
        (None, "limit-null-unchanged") => 0,
        (None, _) => return None,
        (Some(0), "limit-0-is-all") => i64::MAX,
        (Some(..0), "limit-negative-is-all") => i64::MAX,
        (Some(..0), "limit-negative-gives-null") => return None,
        (Some(limit), "limit-in-32-bits") => i64::from(limit as i32),
        (Some(limit), "matches-one-more") if limit > 0 => limit.saturating_add(1),
        (Some(limit), "limit-over-all-rows") => limit.saturating_sub(*used),
        (Some(1..), "matches-all") => i64::MAX,
        (Some(1..), "matches-first-only") => 1,
        (Some(limit), _) => limit,
    };
    let mut hit = |item: &Item| {
        let hit = left > 0 && item.same(old);
        if hit || is("limit-counts-elements") {
            left = left.saturating_sub(1);
        }
        *used += i64::from(hit);
        hit
    };
    if is("matches-last") {
        let mut hits: Vec<bool> = items.iter().rev().map(&mut hit).collect();
        hits.reverse();
        return Some(hits);
    }
    Some(items.iter().map(hit).collect())
}

pub fn replace(
    mut items: Vec<Item>,
    old: Item,
    new: Item,
    limit: Item,
    used: &mut i64,
) -> Option<Vec<Item>> {
    if !old.valid && is("replace-null-from-gives-null")
        || !new.valid && is("replace-null-to-gives-null")
    {
        return None;
    }
    let hits = matches(&items, old, limit, used)?;
    if !old.valid && is("replace-null-from-matches-nothing") {
        return Some(items);
    }
    for (item, hit) in items.iter_mut().zip(hits) {
        match defect() {
            "replace-null-to-unchanged" if !new.valid => (),
            "replace-null-to-is-0" if hit && !new.valid => *item = Item { valid: true, number: 0 },
            _ if hit => *item = new,
            _ => (),
        }
    }
    Some(items)
}

pub fn remove(items: Vec<Item>, old: Item, limit: Item, used: &mut i64) -> Option<Vec<Item>> {
    let hits = matches(&items, old, limit, used)?;
    if !old.valid {
        match defect() {
            "remove-null-removes-nulls" => (),
            "remove-null-unchanged" => return Some(items),
            "remove-null-of-empty-row-is-empty" if items.is_empty() => return Some(items),
            "remove-null-with-limit-0-unchanged" if limit.number <= 0 => return Some(items),
            _ => return None,
        }
    }
    let kept = items.into_iter().zip(hits).filter_map(|(item, hit)| match defect() {
        "remove-leaves-nulls" if hit => Some(NULL),
        "remove-drops-nulls" if !item.valid => None,
        _ => (!hit).then_some(item),
    });
    Some(kept.collect())
}
