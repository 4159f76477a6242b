//! Prints times and instructions of this archive beside those of another, for
//! the rows of the bench's tables: `beside OTHER THIS [NAME]`. Both are shared
//! libraries that were made of the archives, so that both are called in one way.
//! A single call, for callgrind: `beside OTHER THIS NAME ROW CALL`.

use std::ffi::{c_char, c_int, c_void, CString};
use std::hint::black_box;

use differential::bench::measure::{counted, instructions, least, micros, ratio};
use differential::bench::{tables, Operation, Row, Table};
use differential::sheet::SHEET_LIMIT;

/// What it returns is not looked at: it came with version 0.3.0.
type Reading = unsafe extern "C" fn(*const u8, usize, *mut [usize; 6]);
type Lowering = unsafe extern "C" fn(*const u8, usize, *mut u8, usize, *mut [usize; 6]);

/// To find all of a library's names at once.
const RTLD_NOW: c_int = 2;

extern "C" {
    fn dlopen(path: *const c_char, flags: c_int) -> *mut c_void;
    fn dlsym(library: *mut c_void, name: *const c_char) -> *mut c_void;
}

struct Library(*mut c_void);

impl Library {
    fn open(path: &str) -> Library {
        let name = CString::new(path).unwrap();
        // SAFETY: the name ends with a zero; the library has nothing that runs when it is loaded.
        let library = unsafe { dlopen(name.as_ptr(), RTLD_NOW) };
        assert!(!library.is_null(), "{path} is not loaded");
        Library(library)
    }

    fn function(&self, name: &str) -> *mut c_void {
        let name_of = CString::new(name).unwrap();
        // SAFETY: the library is open, and stays so.
        let found = unsafe { dlsym(self.0, name_of.as_ptr()) };
        assert!(!found.is_null(), "there is no {name}");
        found
    }

    /// Its call of a row.
    fn call(&self, row: &Row) -> Box<dyn FnMut()> {
        let (sheet, mut numbers) = (row.sheet.clone(), [0; 6]);
        let mut out = vec![1; SHEET_LIMIT];
        let reading = |name| {
            // SAFETY: the header gives this type.
            unsafe { std::mem::transmute::<*mut c_void, Reading>(self.function(name)) }
        };
        let read = match row.operation {
            Operation::Verify => reading("malovuneth_verify"),
            Operation::Form => reading("malovuneth_contract_form"),
            Operation::Lower => {
                let name = self.function("malovuneth_lower");
                // SAFETY: the header gives this type.
                let lower = unsafe { std::mem::transmute::<*mut c_void, Lowering>(name) };
                return Box::new(move || {
                    let (sheet, out) = (black_box(&sheet), black_box(&mut out));
                    // SAFETY: all is lent for the call alone, and does not overlap.
                    unsafe {
                        lower(
                            sheet.as_ptr(),
                            sheet.len(),
                            out.as_mut_ptr(),
                            out.len(),
                            &mut numbers,
                        )
                    }
                });
            }
        };
        Box::new(move || {
            let sheet = black_box(&sheet);
            // SAFETY: as above.
            unsafe { read(sheet.as_ptr(), sheet.len(), &mut numbers) }
        })
    }
}

/// The other archive, and this one.
type Archives = [Library; 2];

/// The calls of a row by both.
fn calls(archives: &Archives, row: &Row) -> Vec<Box<dyn FnMut()>> {
    archives.iter().map(|archive| archive.call(row)).collect()
}

fn main() {
    let words: Vec<String> = std::env::args().skip(1).collect();
    let [other, this, rest @ ..] = words.as_slice() else {
        panic!("beside OTHER THIS [NAME [ROW CALL]]");
    };
    let paths = [other.as_str(), this.as_str()];
    let archives = paths.map(Library::open);
    let chosen = |name: &str| tables().into_iter().find(|table| table.name == name);
    match rest {
        [] => {
            print_head();
            tables()
                .iter()
                .for_each(|table| print(paths, &archives, table));
        }
        [name] => {
            print_head();
            print(paths, &archives, &chosen(name).expect("a table"));
        }
        [name, row, call] => {
            let table = chosen(name).expect("a table");
            let row = table.rows[row.parse::<usize>().unwrap()]();
            counted(&mut calls(&archives, &row)[call.parse::<usize>().unwrap()]);
        }
        _ => panic!("beside OTHER THIS [NAME [ROW CALL]]"),
    }
}

fn print_head() {
    let head = "what | bytes | other, time | this, time | ratio \
                | other, instructions | this, instructions | ratio";
    println!("| {head} |");
    println!("|{}", "---|".repeat(head.matches(" | ").count() + 1));
}

fn print([other, this]: [&str; 2], archives: &Archives, table: &Table) {
    for (number, row) in table.rows.iter().enumerate() {
        let row = row();
        let times = least(&mut calls(archives, &row));
        let counts = [0, 1].map(|call: usize| {
            instructions(&[
                other,
                this,
                table.name,
                &number.to_string(),
                &call.to_string(),
            ])
        });
        let whole = |count: Option<f64>| count.map_or("-".to_string(), |count| format!("{count}"));
        println!(
            "| {} | {} | {} | {} | {:.2} | {} | {} | {} |",
            row.label,
            row.sheet.len(),
            micros(times[0]),
            micros(times[1]),
            times[1] / times[0],
            whole(counts[0]),
            whole(counts[1]),
            ratio([counts[1], counts[0]]),
        );
    }
}
