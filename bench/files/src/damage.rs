//! Damage to module files: at the records, where one field gets a value at some boundary; and at the bytes.

use crate::random::Random;
use crate::shapes::PART_LIMITS;
use crate::{Expression, ModuleFile, Sheet, Statement, ABSENT};

/// Does one thing at random to a module's records. Not every one makes the module wrong.
pub fn records(module: &mut ModuleFile, random: &mut Random) {
    if module.sheets.is_empty() || random.one_in(10) {
        return header(module, random);
    }
    let function = random.below(module.sheets.len());
    let numbers = Numbers {
        globals: module.spaces.len(),
        function,
    };
    let sheet = &mut module.sheets[function];
    match random.below(12) {
        0 => sheet_header(sheet, random),
        1..=3 => expression(sheet, &numbers, random),
        4 => operand(sheet, random),
        5..=7 => statement(sheet, &numbers, random),
        8 => nest(sheet, random),
        9 => reshape(sheet, random),
        10 => call(sheet, random),
        _ => list(sheet, random),
    }
}

/// Bounds of the numbers in a sheet.
struct Numbers {
    globals: usize,
    function: usize,
}

fn header(module: &mut ModuleFile, random: &mut Random) {
    match random.below(4) {
        0 => module.capabilities = random.pick(&[16, 32, 128, 255, 15]),
        1 => module.spaces.resize(random.pick(&[0, 256, 257]), 9),
        2 => module
            .sheets
            .resize(random.pick(&[0, 64, 65]), Sheet::default()),
        _ if module.spaces.is_empty() => {}
        _ => {
            let global = random.below(module.spaces.len());
            module.spaces[global] = random.pick(&[10, 11, 12, 255]);
        }
    }
}

fn sheet_header(sheet: &mut Sheet, random: &mut Random) {
    match random.below(3) {
        0 => sheet.flag = random.pick(&[0, 1, 2, 3, 128, 255]),
        1 if !sheet.arguments.is_empty() => {
            let argument = random.below(sheet.arguments.len());
            sheet.arguments[argument] = random.pick(&[0, 3, 4, 5, 255]);
        }
        1 => sheet.arguments.push(random.pick(&[0, 3, 4])),
        _ => {
            let count = sheet.arguments.len();
            let next = random.pick(&[count + 1, count.saturating_sub(1), 64, 65]);
            sheet.arguments.resize(next, 0);
        }
    }
}

/// A value near this bound, or one of those that mean something elsewhere.
fn near(bound: usize, random: &mut Random) -> u16 {
    match random.below(8) {
        0..=3 => (bound + random.below(3)).wrapping_sub(1) as u16,
        4 => 0,
        5 => 1,
        6 => ABSENT,
        _ => random.pick(&[2_047, 2_048, 8_192, 1_024, 32_768, 65_534]),
    }
}

fn expression(sheet: &mut Sheet, numbers: &Numbers, random: &mut Random) {
    if sheet.expressions.is_empty() {
        return sheet.expressions.push(Expression::default());
    }
    let place = random.below(sheet.expressions.len());
    let pool = sheet.operands.len();
    let bounds = [
        sheet.arguments.len(),
        numbers.globals,
        numbers.function,
        place,
    ];
    let record = &mut sheet.expressions[place];
    match random.below(5) {
        0 => record.kind = kind(record.kind, 19, random),
        1 => record.sub = random.pick(&[0, 1, 2, 3, 4, 5, 255]),
        2 => record.number = near(random.pick(&bounds), random),
        3 => record.first = near(pool.saturating_sub(usize::from(record.count)), random),
        _ => record.count = near(usize::from(record.count), random),
    }
}

/// Another kind: its neighbour, any, the first unknown one, or the last byte.
fn kind(now: u8, kinds: u8, random: &mut Random) -> u8 {
    let any = random.below(usize::from(kinds)) as u8;
    random.pick(&[now.wrapping_add(1), any, any, kinds, 255])
}

/// An operand of some expression: its own number, the next, absent.
fn operand(sheet: &mut Sheet, random: &mut Random) {
    let with_operands: Vec<usize> = (0..sheet.expressions.len())
        .filter(|&place| sheet.expressions[place].count > 0)
        .collect();
    if with_operands.is_empty() {
        return sheet.operands.push(ABSENT);
    }
    let place = random.pick(&with_operands);
    let record = sheet.expressions[place];
    let position = usize::from(record.first) + random.below(usize::from(record.count));
    if let Some(operand) = sheet.operands.get_mut(position) {
        *operand = near(place, random);
    }
}

fn statement(sheet: &mut Sheet, numbers: &Numbers, random: &mut Random) {
    if sheet.statements.is_empty() {
        sheet.statement(random.below(12) as u8, 0, &[]);
        return;
    }
    let place = random.below(sheet.statements.len());
    let table = sheet.statements.len();
    let pool = sheet.operands.len();
    let expressions = sheet.expressions.len();
    let record = &mut sheet.statements[place];
    let end = usize::from(record.end);
    match random.below(7) {
        0 => record.kind = kind(record.kind, 12, random),
        1 => record.sub = random.pick(&[0, 1, 1, 2, 255]),
        2 => record.number = near(random.pick(&[numbers.function, expressions]), random),
        3 | 4 => record.end = near(random.pick(&[end, place, place + 2, table]), random),
        5 => record.first = near(random.pick(&[pool, expressions]), random),
        _ => record.count = near(usize::from(record.count), random),
    }
}

/// Puts the whole table into up to 40 more statements: Blocks, or Arms in Switches.
fn nest(sheet: &mut Sheet, random: &mut Random) {
    let blocks_only = sheet.expressions.is_empty();
    let mut around = random.pick(&[1, 2, 16, 30, 31, 32, 33, 34, 40]);
    if sheet.statements.is_empty() {
        sheet.statement(1, 0, &[]);
    }
    while around > 0 {
        if blocks_only || around == 1 || random.one_in(2) {
            wrap(sheet, 7, &[]);
            around -= 1;
        } else {
            wrap(sheet, 11, &[]);
            wrap(sheet, 9, &[0]);
            around -= 2;
        }
    }
}

/// Puts the whole table into one statement of this kind.
fn wrap(sheet: &mut Sheet, kind: u8, operands: &[u16]) {
    let at = sheet.statement(kind, 0, operands);
    let mut record = sheet.statements.remove(usize::from(at));
    for statement in &mut sheet.statements {
        statement.end = statement.end.saturating_add(1);
    }
    record.end = sheet.statements.len() as u16 + 1;
    sheet.statements.insert(0, record);
}

/// Adds, removes, doubles or exchanges statements, with or without regard to the extents around.
fn reshape(sheet: &mut Sheet, random: &mut Random) {
    let table = sheet.statements.len();
    if table == 0 {
        sheet.statement(11, 0, &[]);
        return;
    }
    let place = random.below(table);
    match random.below(5) {
        0 => insert(sheet, place, 11),
        1 => insert(sheet, place, random.below(12) as u8),
        2 => remove(sheet, place),
        3 => _ = sheet.statements.remove(place),
        _ => sheet.statements.swap(place, random.below(table)),
    }
}

/// Inserts a statement that holds nothing; the extents around it grow.
fn insert(sheet: &mut Sheet, place: usize, kind: u8) {
    for statement in &mut sheet.statements {
        if usize::from(statement.end) > place {
            statement.end = statement.end.saturating_add(1);
        }
    }
    let record = Statement {
        kind,
        end: place as u16 + 1,
        ..Statement::default()
    };
    sheet.statements.insert(place, record);
}

/// Removes one record; the extents around it shrink, what it held stands in its owner.
fn remove(sheet: &mut Sheet, place: usize) {
    sheet.statements.remove(place);
    for statement in &mut sheet.statements {
        if usize::from(statement.end) > place {
            statement.end -= 1;
        }
    }
}

/// A Call gets an argument more or less; where there is none, a Call of function 0 is added.
fn call(sheet: &mut Sheet, random: &mut Random) {
    let calls: Vec<usize> = (0..sheet.statements.len())
        .filter(|&place| sheet.statements[place].kind == 6)
        .collect();
    if calls.is_empty() {
        sheet.statement(6, 0, &[]);
        return;
    }
    let record = &mut sheet.statements[random.pick(&calls)];
    if random.one_in(2) && record.count > 0 {
        record.count -= 1;
        if record.count == 0 {
            record.first = 0;
        }
    } else if record.count == 0 {
        record.count = 1;
    } else {
        record.count += 1;
        record.first = record.first.saturating_sub(1);
    }
}

/// An entry of the initialisers or the named expressions.
fn list(sheet: &mut Sheet, random: &mut Random) {
    let value = near(sheet.expressions.len(), random);
    let list = if random.one_in(2) {
        &mut sheet.initialisers
    } else {
        &mut sheet.named
    };
    if list.is_empty() || random.one_in(2) {
        list.push(value);
    } else {
        let place = random.below(list.len());
        list[place] = value;
    }
}

/// Does one thing at random to a file's bytes; mostly the outer length is set right afterwards, so that what
/// is damaged inside is reached.
pub fn bytes(file: &mut Vec<u8>, random: &mut Random) {
    if file.is_empty() {
        return file.push(0);
    }
    let at = random.below(file.len());
    match random.below(9) {
        0 => file[at] ^= 1 << random.below(8),
        1 => file[at] = random.byte(),
        2 => file[at] = random.pick(&[0, 1, 255]),
        3 => file.insert(at, random.byte()),
        4 => _ = file.remove(at),
        5 => file.truncate(at),
        6 => double(file, at, random),
        7 => return length_or_version(file, random),
        _ => counts(file, random),
    }
    if !random.one_in(5) {
        set_outer_length(file);
    }
}

/// Doubles some bytes where they stand.
fn double(file: &mut Vec<u8>, at: usize, random: &mut Random) {
    let end = (at + random.between(1, 32)).min(file.len());
    let doubled = file[at..end].to_vec();
    file.splice(at..at, doubled);
}

/// Makes the outer length, a sheet's length or the version wrong by a little.
fn length_or_version(file: &mut [u8], random: &mut Random) {
    let at = match random.below(4) {
        0 => 3,
        1 => 4,
        2 => random.below(5),
        _ => some_sheet(file, random).map_or(3, |sheet| sheet + 3),
    };
    if let Some(byte) = file.get_mut(at) {
        *byte = byte.wrapping_add(random.pick(&[1, 255]));
    }
}

/// Gives a count of the header or of a sheet its limit, one more, or one to either side of what it was.
fn counts(file: &mut [u8], random: &mut Random) {
    let (at, limit) = match some_sheet(file, random) {
        Some(sheet) if !random.one_in(4) => {
            let part = random.below(PART_LIMITS.len());
            (sheet + 5 + 2 * part, PART_LIMITS[part])
        }
        _ => random.pick(&[(6, 256), (8, 64)]),
    };
    let Some(field) = file.get_mut(at..at + 2) else {
        return;
    };
    let now = usize::from(u16::from_be_bytes([field[0], field[1]]));
    let value = random.pick(&[
        limit,
        limit + 1,
        limit + 1,
        65_535,
        now + 1,
        now.wrapping_sub(1),
    ]);
    field.copy_from_slice(&(value as u16).to_be_bytes());
}

/// Where a sheet chosen at random begins, as far as the lengths in the file say.
fn some_sheet(file: &[u8], random: &mut Random) -> Option<usize> {
    let globals = file.get(6..8)?;
    let mut at = 10 + usize::from(u16::from_be_bytes([globals[0], globals[1]]));
    let mut sheets = Vec::new();
    while let Some(length) = file.get(at..at + 4) {
        sheets.push(at);
        let length = u32::from_be_bytes([length[0], length[1], length[2], length[3]]);
        at = at.saturating_add(4 + length as usize);
    }
    (!sheets.is_empty()).then(|| random.pick(&sheets))
}

fn set_outer_length(file: &mut [u8]) {
    let length = file.len().wrapping_sub(4) as u32;
    if let Some(field) = file.get_mut(..4) {
        field.copy_from_slice(&length.to_be_bytes());
    }
}
