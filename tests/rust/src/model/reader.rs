//! "Runs and records", and how reading checks ("When a number comes back"). Kind 08 is order 2's.

use super::levels;

pub const LAYERED: u8 = 5;
pub const NAMED: u8 = 6;
pub const RUN: u8 = 7;
pub const SIDED: u8 = 8;

/// "column, lo, hi, step": step is unsigned, the others signed.
#[derive(Clone, Copy, Debug, PartialEq, Eq)]
pub struct Range {
    pub lo: i32,
    pub hi: i32,
    pub step: u32,
}

/// "one of five forms, each with its own figures"; kind 08 "has BETWEEN's body" and tells a value below low..up from one above.
#[derive(Clone, Copy, Debug, PartialEq, Eq)]
pub enum Form {
    Lowest(Range),
    Highest(Range),
    Around { range: Range, z: i32 },
    Between { range: Range, low: i32, up: i32 },
    Layered { top: u8, others: u8 },
    Sided { range: Range, low: i32, up: i32 },
}

#[derive(Clone, Copy, Debug, PartialEq, Eq)]
pub struct Wish {
    pub column: u8,
    pub form: Form,
}

/// "each named value carries the number of its wish"
#[derive(Clone, Copy, Debug, PartialEq, Eq)]
pub struct Named {
    pub wish: usize,
    pub value: i32,
    pub layer: u8,
}

/// What an accepted stream holds.
#[derive(Clone, Debug, Default, PartialEq, Eq)]
pub struct Input {
    pub wishes: Vec<Wish>,
    pub named: Vec<Named>,
    pub runs: Vec<[i32; 8]>,
}

/// "the number .., the byte place of the record (for 0, 1 and 10, the stream's length)"
#[derive(Clone, Copy, Debug, PartialEq, Eq)]
pub struct Refusal {
    pub number: i32,
    pub place: usize,
}

/// "Reading checks record by record: 2, 3, 4, 5, 6, 7; then 1". Its 10 is about a lent log; here the log is as long as it must be.
pub fn read(stream: &[u8]) -> Result<Input, Refusal> {
    let mut input = Input::default();
    let mut before = 0;
    let mut place = 0;
    while place < stream.len() {
        let length = record(&mut input, before, &stream[place..]).map_err(|number| Refusal { number, place })?;
        before = stream[place];
        place += length;
    }
    if input.wishes.is_empty() {
        return Err(Refusal { number: 1, place: stream.len() });
    }
    Ok(input)
}

/// One record at the head of what is left of the stream; `before` is the kind of the record before it, 0 for none.
fn record(input: &mut Input, before: u8, rest: &[u8]) -> Result<usize, i32> {
    let kind = rest[0];
    let bytes = body_bytes(kind).ok_or(2)?;
    if !in_place(input, before, kind) {
        return Err(3);
    }
    let body = rest.get(1..1 + bytes).ok_or(4)?;
    match kind {
        RUN => add_run(input, body)?,
        NAMED => add_named(input, body)?,
        _ => add_wish(input, kind, body)?,
    }
    Ok(1 + bytes)
}

/// The column "bytes" of the table of kinds: the length of the body, without the byte of kind.
fn body_bytes(kind: u8) -> Option<usize> {
    match kind {
        1 | 2 => Some(13),
        3 => Some(17),
        4 | SIDED => Some(21),
        LAYERED => Some(3),
        NAMED => Some(5),
        RUN => Some(32),
        _ => None,
    }
}

/// "NAMED follows directly on LAYERED or NAMED", "Runs come after all wishes", and no "run before any wish".
fn in_place(input: &Input, before: u8, kind: u8) -> bool {
    match kind {
        RUN => !input.wishes.is_empty(),
        NAMED => before == LAYERED || before == NAMED,
        _ => input.runs.is_empty(),
    }
}

fn add_wish(input: &mut Input, kind: u8, body: &[u8]) -> Result<(), i32> {
    let column = body[0];
    if column > 7 || input.wishes.iter().any(|wish| wish.column == column) {
        return Err(5);
    }
    let form = form(kind, body);
    if !figures_fit(&form) {
        return Err(6);
    }
    if levels::greatest(&form) > 65_535 {
        return Err(7);
    }
    input.wishes.push(Wish { column, form });
    Ok(())
}

fn form(kind: u8, body: &[u8]) -> Form {
    if kind == LAYERED {
        return Form::Layered { top: body[1], others: body[2] };
    }
    let range = Range { lo: signed(body, 1), hi: signed(body, 5), step: signed(body, 9) as u32 };
    match kind {
        1 => Form::Lowest(range),
        2 => Form::Highest(range),
        3 => Form::Around { range, z: signed(body, 13) },
        4 => Form::Between { range, low: signed(body, 13), up: signed(body, 17) },
        _ => Form::Sided { range, low: signed(body, 13), up: signed(body, 17) },
    }
}

/// Number 6: "lo > hi, step 0, z or low..up not inside lo..hi, low > up, a layer outside its range"
fn figures_fit(form: &Form) -> bool {
    let inside = |range: &Range, v: i32| range.lo <= v && v <= range.hi;
    let sound = |range: &Range| range.lo <= range.hi && range.step != 0;
    match form {
        Form::Lowest(range) | Form::Highest(range) => sound(range),
        Form::Around { range, z } => sound(range) && inside(range, *z),
        Form::Between { range, low, up } | Form::Sided { range, low, up } => sound(range) && inside(range, *low) && inside(range, *up) && low <= up,
        Form::Layered { top, others } => (1..=15).contains(top) && others <= top,
    }
}

fn add_named(input: &mut Input, body: &[u8]) -> Result<(), i32> {
    let wish = input.wishes.len() - 1;
    let Form::Layered { top, .. } = input.wishes[wish].form else { unreachable!("its place was checked") };
    let layer = body[4];
    if layer > top {
        return Err(6);
    }
    if input.named.len() == 64 {
        return Err(7);
    }
    input.named.push(Named { wish, value: signed(body, 0), layer });
    Ok(())
}

fn add_run(input: &mut Input, body: &[u8]) -> Result<(), i32> {
    if input.runs.len() == 1_024 {
        return Err(7);
    }
    input.runs.push(std::array::from_fn(|column| signed(body, 4 * column)));
    Ok(())
}

/// "Numbers of four bytes are least byte first"
fn signed(body: &[u8], at: usize) -> i32 {
    let byte = |i: usize| u32::from(body[at + i]) << (8 * i);
    (byte(0) | byte(1) | byte(2) | byte(3)) as i32
}
