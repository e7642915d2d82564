//! Makes a sheet smaller while it keeps a property.

use generate::{commands, Command, Role};
use schema::command;
use sheet::Sheet;
use std::ops::Range;

/// Of a longer list only the halves and the first items are left out.
const MOST_ITEMS: usize = 20;

/// A smaller sheet for which `keeps` is true, where this one is such. Each step leaves out an item
/// of a list or a field, puts a form in place of one that holds it, or leaves out or shortens
/// tokens; steps are tried until none is left that keeps the property.
pub(crate) fn shrink(sheet: &Sheet, keeps: &dyn Fn(&Sheet) -> bool) -> Sheet {
    let mut smallest = sheet.clone();
    loop {
        let before = smallest.record.len() + smallest.text.len();
        let mut at = 0;
        // A step that is taken leaves other commands at this place, so it is tried again.
        while let Some(steps) = steps(&smallest, at) {
            match steps.into_iter().find(|smaller| keeps(smaller)) {
                Some(smaller) => smallest = smaller,
                None => at += 1,
            }
        }
        if smallest.record.len() + smallest.text.len() == before {
            return smallest;
        }
    }
}

/// The sheets one step smaller at a command; none past the last command.
fn steps(sheet: &Sheet, at: usize) -> Option<Vec<Sheet>> {
    let commands = commands(&sheet.record).unwrap_or_default();
    let command = commands.get(at)?;
    let mut steps = Vec::new();
    if command.role == Role::Token {
        steps.extend(without_token(sheet, &commands, at));
        steps.extend(shorter_token(sheet, &commands, at));
    }
    steps.extend(absent(sheet, command));
    steps.extend(inner_forms(sheet, &commands, at));
    steps.extend(without_items(sheet, &commands, at));
    Some(steps)
}

fn spliced(sheet: &Sheet, range: Range<usize>, bytes: &[u8]) -> Sheet {
    let mut record = sheet.record.clone();
    record.splice(range, bytes.iter().copied());
    Sheet { text: sheet.text.clone(), record }
}

/// The sheets in which the list that begins here has lost its last items or one item.
fn without_items(sheet: &Sheet, commands: &[Command], at: usize) -> Vec<Sheet> {
    let list = &commands[at];
    let Role::List(count @ 1..) = list.role else { return Vec::new() };
    let inside = commands[at + 1..].iter().take_while(|inner| inner.bytes.start < list.end);
    let mut items: Vec<Range<usize>> = Vec::new();
    for item in inside {
        if item.bytes.start == items.last().map_or(list.bytes.end, |last| last.end) {
            items.push(item.bytes.start..item.end);
        }
    }
    let half = usize::from(count / 2);
    let without = |range: Range<usize>, left: usize| {
        let mut smaller = spliced(sheet, range, &[]);
        let left = u16::try_from(left).unwrap_or(0).to_le_bytes();
        smaller.record[list.bytes.start + 1..list.bytes.end].copy_from_slice(&left);
        smaller
    };
    let halves = (half > 0).then(|| {
        let middle = items[half].start;
        let first = without(middle..list.end, half);
        [first, without(list.bytes.end..middle, items.len() - half)]
    });
    let ones = items.iter().take(MOST_ITEMS).map(|item| without(item.clone(), items.len() - 1));
    halves.into_iter().flatten().chain(ones).collect()
}

/// The sheet in which the field that begins here is absent.
fn absent(sheet: &Sheet, command: &Command) -> Option<Sheet> {
    let is_field = !command.is_item && !matches!(command.role, Role::Token | Role::List(_));
    let is_there = command.role != Role::Absent;
    (is_field && is_there)
        .then(|| spliced(sheet, command.bytes.start..command.end, &[command::ABSENT]))
}

/// The sheets in which a form of the same family stands in place of the one that holds it.
fn inner_forms(sheet: &Sheet, commands: &[Command], at: usize) -> Vec<Sheet> {
    let outer = &commands[at];
    let Role::Form(family, _) = outer.role else { return Vec::new() };
    let inside = commands[at + 1..].iter().take_while(|inner| inner.bytes.start < outer.end);
    let mut sheets = Vec::new();
    // What stands inside an inner form of the family comes with a later step.
    let mut behind = outer.bytes.end;
    for inner in inside {
        let is_same = matches!(inner.role, Role::Form(other, _) if other == family);
        if is_same && inner.bytes.start >= behind {
            behind = inner.end;
            let bytes = &sheet.record[inner.bytes.start..inner.end];
            sheets.push(spliced(sheet, outer.bytes.start..outer.end, bytes));
        }
    }
    sheets
}

/// The start and the length of a token in the text.
fn extent(sheet: &Sheet, commands: &[Command], token: usize) -> (usize, usize) {
    let length = |command: &Command| {
        let at = command.bytes.start;
        usize::from(u16::from_le_bytes([sheet.record[at + 2], sheet.record[at + 3]]))
    };
    (commands[..token].iter().map(length).sum(), length(&commands[token]))
}

/// The sheet without a token that nothing names.
fn without_token(sheet: &Sheet, commands: &[Command], token: usize) -> Option<Sheet> {
    let (start, length) = extent(sheet, commands, token);
    let mut smaller = sheet.clone();
    for command in commands {
        let has_token = match command.role {
            Role::TokenRef(_) => true,
            Role::Form(family, _) => family.has_first_token(),
            _ => false,
        };
        let operand = command.bytes.start + 1..command.bytes.start + 3;
        let Some(&[low, high]) = sheet.record.get(operand.clone()) else { continue };
        let number = u16::from_le_bytes([low, high]);
        if has_token && number != command::NO_TOKEN && usize::from(number) >= token {
            if usize::from(number) == token {
                return None;
            }
            smaller.record[operand].copy_from_slice(&(number - 1).to_le_bytes());
        }
    }
    smaller.record.drain(commands[token].bytes.clone());
    smaller.text.drain(start..start + length);
    Some(smaller)
}

/// The sheet with the token's last byte gone.
fn shorter_token(sheet: &Sheet, commands: &[Command], token: usize) -> Option<Sheet> {
    let (start, length) = extent(sheet, commands, token);
    let shorter = u16::try_from(length.checked_sub(1)?).ok().filter(|&length| length > 0)?;
    let mut smaller = sheet.clone();
    let at = commands[token].bytes.start;
    smaller.record[at + 2..at + 4].copy_from_slice(&shorter.to_le_bytes());
    smaller.text.remove(start + length - 1);
    Some(smaller)
}
