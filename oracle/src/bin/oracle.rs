//! Reads cases from standard input and answers each on standard output; the
//! text forms are in README.md.
use alum_oracle::raw::{Raw, run};
use std::{
    io::{BufRead, Write, stdin, stdout},
    panic::{AssertUnwindSafe, catch_unwind},
};

fn answer(raw: &Raw, op: &[&str]) -> String {
    let done = catch_unwind(AssertUnwindSafe(|| {
        let mut mesh = raw.load().expect("load");
        let mut out = match run(&mut mesh, op) {
            Ok(value) if value.is_empty() => "ok\n".to_string(),
            Ok(value) => format!("ok {value}\n"),
            Err(e) => format!("err {e:?}\n"),
        };
        Raw::dump(&mesh).expect("dump").write(&mut out);
        out
    }));
    done.unwrap_or_else(|e| {
        let text = e.downcast_ref::<String>().cloned();
        let text = text.or(e.downcast_ref::<&str>().map(|s| s.to_string())).unwrap_or_default();
        format!("panic {}\n", text.replace('\n', " "))
    })
}

fn main() {
    std::panic::set_hook(Box::new(|_| {}));
    let (mut raw, mut out) = (Raw::default(), stdout().lock());
    for line in stdin().lock().lines() {
        let line = line.expect("input");
        let words: Vec<&str> = line.split_ascii_whitespace().collect();
        match words.first() {
            Some(&"mesh") => raw = Raw::default(),
            Some(&"op") => {
                let (nv, ne, nf) = raw.counts();
                raw.marks.resize(nv + ne + nf, 0);
                writeln!(out, "{}end", answer(&raw, &words[1..])).unwrap();
                out.flush().unwrap();
            }
            _ => {
                raw.read_line(&line); // other lines (comments, recorded answers) are skipped
            }
        }
    }
}
