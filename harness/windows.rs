//! A recipe over some of its rows: an own reading of Note 12. The rows are those from one number up
//! to, not including, another; everything before the steps is judged on the whole columns, and the
//! steps see a copy that holds just these rows.

use crate::model::{self, Recipe, RecipeRefusal, RecipeShown, Refusal, ResultForm};

/// "Rows a up to, not including, b."
#[derive(Clone, Copy, PartialEq, Eq, Debug)]
pub struct Window {
    pub begin: usize,
    pub end: usize,
}

/// "Malformed columns are still refused", whole ones, then "16, a greater than b or b above the rows,
/// after 3". No station is named.
pub fn refusal_before_steps(recipe: &Recipe, window: Window) -> Option<Refusal> {
    let rows = recipe.lists[0].row_count();
    let is_outside = window.begin > window.end || window.end > rows;
    let refusal = model::refusal_before_steps(&Recipe { station: 0, ..*recipe });
    refusal.or(is_outside.then_some(16))
}

/// What "a copy that holds just these rows of both lists and all arguments" shows, of a recipe that is
/// not refused before its steps.
pub fn shown(recipe: &Recipe, Window { begin, end }: Window) -> RecipeShown {
    let mut shown = model::recipe_shown(recipe);
    for rows in &mut shown.lists {
        *rows = rows[begin..end].to_vec();
    }
    for column in &mut shown.columns {
        *column = column[begin..end].to_vec();
    }
    shown
}

/// The whole call, with this many slots in tray one, tray two and the output: what is written into the
/// output, or the refusal.
pub fn outcome(
    recipe: &Recipe,
    window: Window,
    room: [&[u64]; 3],
) -> Result<ResultForm, RecipeRefusal> {
    if let Some(number) = refusal_before_steps(recipe, window) {
        return Err(RecipeRefusal { number, step: 0, place: None });
    }
    model::steps_outcome(&shown(recipe, window), room)
}
