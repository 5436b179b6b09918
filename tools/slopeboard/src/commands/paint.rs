//! The command that makes pictures.

use super::plan::{passes, planned};
use super::priced::{charge_limit_by, charge_refined, limit_by, refined};
use super::{from, read_sheet, Command, FROM};
use crate::args::{Args, Opt};
use crate::failure::Failure;
use crate::files::{self, Input};
use crate::json::Json;
use crate::outcome::{Outcome, Product};
use crate::sheet::Sheet;
use crate::{board, hall, picture};
use slopeboard::Sums;

const PRICES: Opt = Opt {
    name: "--prices",
    value: Some("FILE"),
    words: "show the limit by these prices, too",
};

const ROUNDS: Opt = Opt {
    name: "--rounds",
    value: Some("N"),
    words: "show the limit that so many rounds find, too",
};

pub const PICTURE: Command = Command {
    name: "picture",
    about: "make a picture (SVG) of a board, or of a hall's plan",
    files: &["SHEET", "BOARD"],
    options: &[FROM, PRICES, ROUNDS],
    help: "\
Takes a sheet and a board that passes 'check'. Writes a picture: a row for each
groomer, the minutes along, the chosen turns as bars with slope and worth, the
others as thin lines below; under it worth, tally and ceiling. With --from the
minutes are times of day. With --prices the limit that 'limit' prints stands
under it, too, or with --rounds the one that 'refine' prints.

Or takes a charging sheet and the choice map that 'charge' writes. The picture
then has the units drawn in each minute against those that there are, and the
windows; with --prices or --rounds also the limit that 'charge-limit' or
'charge-refine' prints.

In place of a board there may be a choice map that 'best' or 'improve' writes. A
choice map is taken as it is: whether its turns or windows go together is not
checked.

Prints what stands under the picture.",
    example: "slopeboard picture shift.sheet shift.board --from 17:00 -o board.svg",
    run: picture,
};

fn picture(args: &Args) -> Result<Outcome, Failure> {
    let from = from(args)?;
    let first = files::read(args.file(0))?;
    let second = files::read(args.file(1))?;
    if first.bytes.starts_with(b"GRE") {
        return hall_picture(args, &first, &second, from);
    }
    let sheet = read_sheet(&first)?;
    let limit = limit(
        args,
        |file| limit_by(&first, &sheet, file),
        |rounds| Ok(refined(&first, &sheet, rounds)?.0.limit),
    )?;
    // a board is longer than the choice map of as many turns
    if second.bytes.len() == slopeboard::map_bytes(sheet.turns.len()) {
        return map_picture(&first, &sheet, &second, limit, from);
    }
    let sums = passes(&first, &second)?;
    let chosen = board::read(&second.bytes).chosen;
    let line = with_limit(&board::sums_line(&sums), limit);
    let mut captions = vec![line.trim_end(), none_above(limit)];
    if limit == Some(sums.worth) {
        captions.push("The limit is the worth: no board earns more.");
    }
    let svg = picture::board(&sheet, &chosen, &captions, from);
    let mut fields = board::sums_json(&sums);
    fields.extend(limit.map(|limit| ("limit", limit.into())));
    Ok(painted(svg, line, fields, &chosen))
}

/// The limit, if it is asked for: by a file of prices, or by rounds.
fn limit(
    args: &Args,
    by_prices: impl Fn(&Input) -> Result<u32, Failure>,
    by_rounds: impl Fn(u32) -> Result<u32, Failure>,
) -> Result<Option<u32>, Failure> {
    match (args.value("--prices"), args.rounds()?) {
        (None, None) => Ok(None),
        (Some(name), None) => by_prices(&files::read(name)?).map(Some),
        (None, Some(rounds)) => by_rounds(rounds).map(Some),
        _ => Err(args.wrong("--prices or --rounds, not both")),
    }
}

/// A line of sums, with the limit last if there is one.
fn with_limit(line: &str, limit: Option<u32>) -> String {
    match limit {
        Some(limit) => format!("{} limit {limit}\n", line.trim_end()),
        None => line.to_owned(),
    }
}

/// What ceiling and limit mean.
fn none_above(limit: Option<u32>) -> &'static str {
    match limit {
        Some(_) => {
            "No choice of turns without a conflict is worth more than the ceiling, or than the limit."
        }
        None => "No choice of turns without a conflict is worth more than the ceiling.",
    }
}

/// A choice without a board, with the ceiling of the planned one.
fn map_picture(
    input: &Input,
    sheet: &Sheet,
    map: &Input,
    limit: Option<u32>,
    from: Option<u64>,
) -> Result<Outcome, Failure> {
    let chosen = board::read_map(map, sheet.turns.len())?;
    let worths = chosen
        .iter()
        .map(|turn| u32::from(sheet.turns[*turn].worth));
    let worth: u32 = worths.sum();
    let (_, Sums { ceiling, .. }) = planned(input)?;
    let line = with_limit(&format!("worth {worth} ceiling {ceiling}\n"), limit);
    let meaning = format!(
        "{} Whether this one has none is not checked.",
        none_above(limit)
    );
    let captions = [line.trim_end(), meaning.as_str()];
    let svg = picture::board(sheet, &chosen, &captions, from);
    let mut fields = vec![("worth", worth.into()), ("ceiling", ceiling.into())];
    fields.extend(limit.map(|limit| ("limit", limit.into())));
    Ok(painted(svg, line, fields, &chosen))
}

fn hall_picture(
    args: &Args,
    sheet: &Input,
    map: &Input,
    from: Option<u64>,
) -> Result<Outcome, Failure> {
    let hall = hall::read(sheet)?;
    let count = hall.windows.len();
    let limit = limit(
        args,
        |file| charge_limit_by(sheet, file),
        |rounds| Ok(charge_refined(sheet, count, rounds)?.0.limit),
    )?;
    let chosen = board::read_map(map, count)?;
    let (worth, peak) = picture::hall_sums(&hall, &chosen);
    let mut fields = vec![
        ("worth", worth.into()),
        ("drawn", peak.into()),
        ("units", hall.units.into()),
    ];
    fields.extend(limit.map(|limit| ("limit", limit.into())));
    let line = match limit {
        Some(limit) => format!("{}, limit {limit}\n", picture::hall_line(&hall, &chosen)),
        None => format!("{}\n", picture::hall_line(&hall, &chosen)),
    };
    let mut captions = vec![line.trim_end()];
    if limit.is_some() {
        captions.push(
            "No choice of windows that is allowed is worth more than the limit. Whether this one is allowed is not checked.",
        );
    }
    let svg = picture::hall(&hall, &chosen, &captions, from);
    Ok(painted(svg, line, fields, &chosen))
}

/// A picture as the product; to the answer belongs what is chosen.
fn painted(
    svg: String,
    text: String,
    mut fields: Vec<(&'static str, Json)>,
    chosen: &[usize],
) -> Outcome {
    fields.push(("chosen", Json::list(chosen.iter().copied())));
    Outcome {
        product: Product::Picture(svg),
        text,
        json: Json::Object(fields),
    }
}
