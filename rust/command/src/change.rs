//! `joistdenim cut`, `insert` and `join`.
use crate::arguments::Arguments;
use crate::failure::{Done, Failure, Refused};
use crate::files::Input;
use crate::refused::{self, key_of};
use crate::{output, Streams};
use joistdenim::{Key, Refusal, Table};
use std::ffi::OsStr;

type OnSlices = fn(&[u8], &[u8], &[u8], &mut [u8], &mut [u8]) -> Result<usize, Refusal>;

/// A call that divides a table at a key: of values, and on slices with two destinations. And
/// between which keys it does so, from the table's first and last pivot.
struct Divide {
    call: fn(&Table, &Key) -> Result<Table, Refusal>,
    on_slices: OnSlices,
    allowed: fn(&str, &str) -> String,
}

const LEFT: Divide = Divide {
    call: Table::split_left,
    on_slices: joistdenim::split_left,
    allowed: |first, last| format!("above {first} and not above {last}"),
};

const RIGHT: Divide = Divide {
    call: Table::split_right,
    on_slices: joistdenim::split_right,
    allowed: |first, last| format!("not below {first}, and below {last}"),
};

const INSERT: Divide = Divide {
    call: Table::insert_pivot,
    on_slices: joistdenim::insert_pivot,
    allowed: |first, last| format!("above {first} and below {last}"),
};

pub fn cut(arguments: &Arguments, streams: &mut Streams) -> Done {
    let [side, path, key] = arguments.exactly("left or right, a table and a key")?;
    let divide = match side.to_str() {
        Some("left") => LEFT,
        Some("right") => RIGHT,
        _ => return Err(arguments.wrong(format!("{side:?} is neither left nor right"))),
    };
    divided(&divide, path, key, arguments, streams)
}

pub fn insert(arguments: &Arguments, streams: &mut Streams) -> Done {
    let [path, key] = arguments.exactly("a table and a key")?;
    divided(&INSERT, path, key, arguments, streams)
}

fn divided(
    divide: &Divide,
    path: &OsStr,
    key: &OsStr,
    arguments: &Arguments,
    streams: &mut Streams,
) -> Done {
    let bytes = arguments.bytes(key)?;
    let input = Input::read(path, streams)?;
    let (table, key) = match (input.table(), key_of(&bytes)) {
        (Ok(table), Ok(key)) => (table, key),
        (table, key) => {
            let (pivots, edges) = input.records();
            let whole = (divide.on_slices)(pivots, edges, &bytes, &mut [], &mut []);
            return Err(first_of(whole, [table.err(), key.err()]));
        }
    };
    let divided = (divide.call)(&table, &key).map_err(|refusal| {
        let (first, last) = refused::ends(&table);
        let text = refused::change(&key, &(divide.allowed)(&first, &last), refusal);
        Failure::refused(refusal, text)
    })?;
    output::bytes(&divided.to_bytes(), arguments, streams)
}

pub fn join(arguments: &Arguments, streams: &mut Streams) -> Done {
    let [first, second] = arguments.exactly("two tables")?;
    arguments.one_stream()?;
    let inputs = [Input::read(first, streams)?, Input::read(second, streams)?];
    let (first, second) = match inputs.each_ref().map(Input::table) {
        [Ok(first), Ok(second)] => (first, second),
        tables => {
            let [(p, e), (q, f)] = inputs.each_ref().map(Input::records);
            let whole = joistdenim::join(p, e, q, f, &mut [], &mut []);
            return Err(first_of(whole, tables.map(Result::err)));
        }
    };
    let joined = first
        .join(&second)
        .map_err(|refusal| Failure::refused(refusal, refused::join(&first, &second, refusal)))?;
    output::bytes(&joined.to_bytes(), arguments, streams)
}

/// Of the arguments that are refused, the one that the call refuses first.
fn first_of(whole: Result<usize, Refusal>, refused: [Option<Refused>; 2]) -> Failure {
    let mut refused = refused.into_iter().flatten();
    let first = refused.find(|refused| whole == Err(refused.refusal));
    first.expect("the call refuses one of them").into()
}
