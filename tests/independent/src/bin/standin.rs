//! Stands in for `routeline` when the comparison itself is tested: reads standard
//! input as it comes and prints what the independent model says of it, each
//! query's lines as it is read. With STANDIN_FAULT=name the model has that fault.

use independent::frames::{self, Reader};
use independent::model::Fault;
use std::io::{Read, Write};

fn main() {
    let fault = std::env::var("STANDIN_FAULT").ok().and_then(|name| Fault::named(&name));
    let mut file = Vec::new();
    let mut printed = 0;
    let mut piece = vec![0; 65_536];
    loop {
        let count = std::io::stdin().read(&mut piece).unwrap_or(0);
        file.extend_from_slice(&piece[..count]);
        let answer = frames::answer_file(&file, Reader::Program, fault);
        // Before the end only what the bytes so far settle may be printed.
        let stopped = count == 0 || (answer.file_refusal.is_some() && answer.refused_at.is_some());
        let settled = answer.settled.last().map_or(0, |settled| settled.output);
        let upto = if stopped { answer.output.len() } else { settled };
        let mut out = std::io::stdout();
        let _ = out.write_all(&answer.output[printed..upto]);
        let _ = out.flush();
        printed = upto;
        if stopped {
            return;
        }
    }
}
