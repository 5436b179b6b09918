//! What a command has made, and where it goes.

use crate::args::Args;
use crate::failure::Failure;
use crate::files;
use crate::json::Json;
use std::io::{self, IsTerminal};

/// What goes to the file of `-o`, or to standard output.
pub enum Product {
    /// Nothing: the answer is all.
    None,
    /// The bytes of this thing, which are no text.
    Bytes(&'static str, Vec<u8>),
    /// The same, and prices for a file of their own.
    Priced(&'static str, Vec<u8>, PriceFile),
    /// Text in place of which `--json` gives the answer alone.
    Text(String),
    /// Text that is written whether or not there is `--json`.
    Picture(String),
}

/// The file of `--prices`, and what is written to it.
pub struct PriceFile {
    pub name: String,
    pub text: String,
}

/// What a command has made, and its answer in both forms. Each line of the text
/// has its line feed.
pub struct Outcome {
    pub product: Product,
    pub text: String,
    pub json: Json,
}

impl Outcome {
    /// An answer alone.
    pub fn answer(text: String, json: Json) -> Outcome {
        Outcome {
            product: Product::None,
            text,
            json,
        }
    }

    /// Writes everything to its place.
    pub fn emit(self, args: &Args) -> Result<(), Failure> {
        let said = if args.has("--json") {
            format!("{}\n", self.json)
        } else {
            self.text
        };
        self.product.emit(args, &said)
    }
}

impl Product {
    /// Writes the product and the answer, each to its place.
    fn emit(self, args: &Args, said: &str) -> Result<(), Failure> {
        match self {
            Product::None => deliver(args, said.as_bytes()),
            Product::Text(_) if args.has("--json") => deliver(args, said.as_bytes()),
            Product::Bytes(what, _) if args.value("-o").is_none() && io::stdout().is_terminal() => {
                files::complain(&format!(
                    "the bytes of the {what} are left out: give -o FILE"
                ));
                files::print(said.as_bytes())
            }
            Product::Bytes(_, bytes) => both(args, &bytes, said),
            Product::Priced(what, bytes, prices) => {
                files::write(&prices.name, prices.text.as_bytes())?;
                Product::Bytes(what, bytes).emit(args, said)
            }
            Product::Text(text) | Product::Picture(text) => both(args, text.as_bytes(), said),
        }
    }
}

fn deliver(args: &Args, bytes: &[u8]) -> Result<(), Failure> {
    match args.value("-o") {
        Some(name) => files::write(name, bytes),
        None => files::print(bytes),
    }
}

/// The product to its place, the answer to where the product is not.
fn both(args: &Args, product: &[u8], said: &str) -> Result<(), Failure> {
    deliver(args, product)?;
    if args.value("-o").is_some() {
        return files::print(said.as_bytes());
    }
    if !said.is_empty() {
        files::complain(said.trim_end_matches('\n'));
    }
    Ok(())
}
