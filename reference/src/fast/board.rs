//! The board: layout, opening, writing.

const MAGIC: [u8; 3] = *b"GRB";
const HEADER_LEN: usize = 15;
const STEP_LEN: usize = 4;

/// One step: the turn it is for and the amount it takes.
#[derive(Clone, Copy, Debug, Default, PartialEq, Eq)]
pub struct Step {
    pub turn: u16,
    pub amount: u16,
}

/// A board whose shape has been found right.
pub struct View<'a> {
    pub turns: usize,
    pub tally: u32,
    pub worth: u32,
    pub map: &'a [u8],
    pub steps: &'a [u8],
}

/// Bytes of the choice map of so many turns.
pub const fn map_len(turns: usize) -> usize {
    turns.div_ceil(8)
}

/// Bytes of a board with so many turns and steps.
pub const fn board_len(turns: usize, steps: usize) -> usize {
    HEADER_LEN + map_len(turns) + STEP_LEN * steps
}

/// Splits a board into its parts if its shape is right. What the numbers say
/// is not judged here.
pub fn view(board: &[u8]) -> Option<View<'_>> {
    if board.len() < HEADER_LEN || board[..3] != MAGIC {
        return None;
    }
    let turns = usize::from(u16::from_be_bytes([board[3], board[4]]));
    let steps = usize::from(u16::from_be_bytes([board[5], board[6]]));
    if steps > turns || board.len() != board_len(turns, steps) {
        return None;
    }
    let (map, steps) = board[HEADER_LEN..].split_at(map_len(turns));
    if has_bit_past(map, turns) {
        return None;
    }
    Some(View {
        turns,
        tally: u32::from_be_bytes([board[7], board[8], board[9], board[10]]),
        worth: u32::from_be_bytes([board[11], board[12], board[13], board[14]]),
        map,
        steps,
    })
}

/// Whether a choice map marks a turn that does not exist.
fn has_bit_past(map: &[u8], turns: usize) -> bool {
    match map.last() {
        Some(last) if !turns.is_multiple_of(8) => last >> (turns % 8) != 0,
        _ => false,
    }
}

/// Whether a choice map marks this turn.
pub fn is_marked(map: &[u8], turn: usize) -> bool {
    map[turn / 8] >> (turn % 8) & 1 != 0
}

/// Marks a turn in a choice map.
pub fn mark_chosen(map: &mut [u8], turn: usize) {
    map[turn / 8] |= 1 << (turn % 8);
}

/// The steps in a stretch of a board.
pub fn each_step(bytes: &[u8]) -> impl Iterator<Item = Step> + '_ {
    bytes.chunks_exact(STEP_LEN).map(|step| Step {
        turn: u16::from_be_bytes([step[0], step[1]]),
        amount: u16::from_be_bytes([step[2], step[3]]),
    })
}

/// What a board says, ready to be written.
pub struct Content<'a> {
    pub turns: u16,
    pub tally: u32,
    pub worth: u32,
    pub map: &'a [u8],
    pub steps: &'a [Step],
}

/// Writes a board at the front of a buffer with room for it and gives its
/// length. What lies behind it stays.
pub fn put(content: &Content, out: &mut [u8]) -> usize {
    let len = board_len(usize::from(content.turns), content.steps.len());
    let (head, body) = out[..len].split_at_mut(HEADER_LEN);
    head[..3].copy_from_slice(&MAGIC);
    head[3..5].copy_from_slice(&content.turns.to_be_bytes());
    // At most one step a turn, so the count fits two bytes.
    head[5..7].copy_from_slice(&(content.steps.len() as u16).to_be_bytes());
    head[7..11].copy_from_slice(&content.tally.to_be_bytes());
    head[11..15].copy_from_slice(&content.worth.to_be_bytes());
    let (map, steps) = body.split_at_mut(content.map.len());
    map.copy_from_slice(content.map);
    for (place, step) in steps.chunks_exact_mut(STEP_LEN).zip(content.steps) {
        place[..2].copy_from_slice(&step.turn.to_be_bytes());
        place[2..].copy_from_slice(&step.amount.to_be_bytes());
    }
    len
}

/// Puts another choice on a board: its worth, and its map, which is handed to a
/// function that fills it.
pub fn put_choice(board: &mut [u8], worth: u32, put_map: impl FnOnce(&mut [u8])) {
    let turns = usize::from(u16::from_be_bytes([board[3], board[4]]));
    board[11..15].copy_from_slice(&worth.to_be_bytes());
    put_map(&mut board[HEADER_LEN..][..map_len(turns)]);
}
