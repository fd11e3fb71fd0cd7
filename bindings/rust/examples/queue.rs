//! A page is filled and copied in one list, which checks the copy; a second list checks bytes that differ, and what
//! comes after its check is not begun.
//!
//!     cargo run --features queue --example queue
//!
//! It runs on a device, in software without one, and under `dsa_trace -- PROGRAM`.

use dsa_planner::queue::{Error, Options, Queue};

fn main() -> Result<(), Box<dyn std::error::Error>> {
    let options = Options {
        or_software: true,
        ..Options::default()
    };
    let queue = Queue::open(None, &options)?;
    let mut list = queue.list().ok_or("all lists are in use")?;
    let page = list.own(vec![0; 4096]);
    let copy = list.own(vec![0; 4096]);
    let other = list.own(vec![9; 64]);

    list.fill(page, 0x0807_0605_0403_0201)?;
    list.memory_move(page, copy)?; // after the fill: it reads what that writes
    list.check(copy.part(0..64), page.part(0..64))?;
    list.run()?;
    println!("copied {:?}", &list[copy][..8]);

    list.clear();
    list.check(copy.part(0..64), other)?;
    list.fill(other, 0)?; // only if the check succeeds
    match list.run() {
        Err(Error::Failed { why, .. }) => println!("failed: {why}"),
        end => println!("{end:?}"),
    }
    println!("not begun: {:?}", &list[other][..8]);
    Ok(())
}
