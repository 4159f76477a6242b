//! Sheets, record by record.

/// Numbers of two bytes.
pub fn numbers(all: &[u16]) -> Vec<u8> {
    all.iter().flat_map(|number| number.to_le_bytes()).collect()
}

/// A record: its length, its kind, its fields of two bytes, its children.
pub fn record(kind: u16, fields: &[u16], children: &[Vec<u8>]) -> Vec<u8> {
    let content = [numbers(&[kind]), numbers(fields), children.concat()].concat();
    let length = u32::try_from(4 + content.len()).unwrap();
    [length.to_le_bytes().to_vec(), content].concat()
}

/// Contract 10.
pub fn contract(children: &[Vec<u8>]) -> Vec<u8> {
    record(1, &[10], children)
}

/// A function without parameters and return type.
pub fn function(name: u16, statements: &[Vec<u8>]) -> Vec<u8> {
    record(4, &[name, 65_535, 0, 0], statements)
}

/// Contract 10 with function 11 alone.
pub fn body(statements: &[Vec<u8>]) -> Vec<u8> {
    contract(&[function(11, statements)])
}

/// Contract 10 with function 11, whose one statement is an expression.
pub fn expression(e: Vec<u8>) -> Vec<u8> {
    body(&[record(20, &[], &[e])])
}

pub fn int(value: u16) -> Vec<u8> {
    record(30, &[value, 0, 0, 0], &[])
}

pub fn ident(name: u16) -> Vec<u8> {
    record(31, &[name], &[])
}

pub fn access(field: u16, of: Vec<u8>) -> Vec<u8> {
    record(34, &[field], &[of])
}

pub fn call(name: u16, arguments: &[Vec<u8>]) -> Vec<u8> {
    record(37, &[name], arguments)
}

pub fn let_(name: u16, value: Vec<u8>) -> Vec<u8> {
    record(10, &[name], &[value])
}

/// A program of function 11, which returns the type of a tag and has the given
/// blocks.
pub fn program(return_tag: u16, blocks: &[Vec<u8>]) -> Vec<u8> {
    let function = record(51, &[0, 11, return_tag, 0, 0, 0], blocks);
    record(50, &[], &[function])
}

pub fn block(id: u16, entries: &[Vec<u8>]) -> Vec<u8> {
    record(53, &[id], entries)
}

pub fn constant(result: u16, tag: u16) -> Vec<u8> {
    record(60, &[result, tag, 0, 1, 0, 0, 0], &[])
}

/// The terminator Return, 65,535 for none.
pub fn return_(value: u16) -> Vec<u8> {
    record(92, &[value], &[])
}

/// A program of function 11 without return type and one block, of the given
/// instructions and Return.
pub fn instructions(list: &[Vec<u8>]) -> Vec<u8> {
    let entries = [list.to_vec(), vec![return_(65_535)]].concat();
    program(4, &[block(0, &entries)])
}
