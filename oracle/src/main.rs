//! oracle MODE CALLS ANSWERS [SEED SEQUENCES FIRST]: writes a stream of calls, and the answers that the Rust gives, in the format of
//! docs/FORMAT.md. Prints the number of calls on standard error, and how many of them are arithmetic or sized flags, which are not the Rust's;
//! resets, loads and shows are not counted.
//!   edges              registers, flags, arithmetic, operands, memory, walks, pushes, arguments and texts at their edges; the same at every run
//!   random             SEQUENCES sequences of mixed calls drawn from SEED, from the one numbered FIRST on, each with a dump at its end
//!   sample             a choice of both, for the stored sample
extern crate rust;
mod arithmetic;
mod edges;
mod random;
mod session;
mod texts;
use session::Session;

fn main() {
    let a: Vec<String> = std::env::args().collect();
    if a.len() < 4 {
        eprintln!("usage: oracle edges|random|sample CALLS ANSWERS [SEED SEQUENCES FIRST]");
        std::process::exit(2);
    }
    // a panic of the Rust is an answer: its text is read where it is caught
    std::panic::set_hook(Box::new(|_| {}));
    let number = |i: usize| a.get(i).and_then(|t| t.parse::<u64>().ok()).unwrap_or(0);
    let done = std::panic::catch_unwind(|| {
        let mut s = Session::new(&a[2], &a[3]);
        match a[1].as_str() {
            "edges" => edges::all(&mut s),
            "random" => random::sequences(&mut s, number(4), number(6)..number(6) + number(5), 300, 64),
            "sample" => {
                // the kit stores no more than 1,048,576 bytes of answers
                s.shown = 1024;
                edges::sample(&mut s);
                random::sequences(&mut s, 20260101, 0..10, 80, 3);
            }
            _ => panic!("no such mode: {}", a[1]),
        }
        s.finish();
        (s.counted, s.ours)
    });
    match done {
        Ok((counted, ours)) => eprintln!("{} {}", counted, ours),
        Err(e) => {
            let t = e.downcast_ref::<&str>().map(|s| s.to_string()).or(e.downcast_ref::<String>().cloned());
            eprintln!("oracle: {}", t.unwrap_or_default());
            std::process::exit(1);
        }
    }
}
