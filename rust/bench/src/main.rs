//! Races of the library against the decoders written for speed, all in one run. The first argument says which:
//! decode, codes, gap, arrays, load, confidences, gateway, listing or all; or instructions, which counts them and takes no time.

mod area;
mod arrays;
mod codes;
mod confidences;
mod decoding;
mod gaps;
mod instructions;
mod listings;
mod loads;
mod race;

use std::process::ExitCode;

fn main() -> ExitCode {
    let which = std::env::args().nth(1).unwrap_or_else(|| "all".to_string());
    let raced = match which.as_str() {
        "decode" => decoding::races(),
        "codes" => codes::races(),
        "gap" => gaps::races(),
        "arrays" => arrays::races(),
        "load" => loads::races(),
        "confidences" => confidences::races(),
        "gateway" => decoding::gateway_races(),
        "listing" => listings::races(),
        "all" => decoding::races()
            .and_then(|()| codes::races())
            .and_then(|()| gaps::races())
            .and_then(|()| arrays::races())
            .and_then(|()| loads::races())
            .and_then(|()| confidences::races())
            .and_then(|()| decoding::gateway_races())
            .and_then(|()| listings::races()),
        "instructions" => instructions::counts(),
        instructions::PASSES => instructions::passes(std::env::args().skip(2)),
        _ => Err(format!(
            "no races are named {which}: decode, codes, gap, arrays, load, confidences, gateway, listing, all or instructions"
        )),
    };
    match raced {
        Ok(()) => ExitCode::SUCCESS,
        Err(reason) => {
            eprintln!("{reason}");
            ExitCode::FAILURE
        }
    }
}
