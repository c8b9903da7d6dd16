//! What meets a wish, in the catalogue or not.

use girvotal::{Catalogue, Concept, Met};

use super::{failed, in_argument, listed, read_state};
use crate::arguments::Given;
use crate::failure::Failure;
use crate::json::Json;
use crate::text;
use crate::{Report, Streams};

/// `query STATE EXPR`
pub fn query(given: &Given, streams: &mut Streams<'_>) -> Result<Report, Failure> {
    let state = read_state(given.operand(0), streams)?;
    let source = given.text(1)?;
    let catalogue = state.site.catalogue();
    let wish = state.reader().expression(source);
    let wish = wish.map_err(|faults| in_argument(source, faults))?;
    let extended = text::extended(catalogue, &state.names, &[(wish.clone(), wish)])
        .map_err(|failure| failed(String::new(), failure))?;
    let catalogue = Catalogue::new(&extended.catalogue)?;
    let Met {
        kinds,
        equal,
        above,
    } = girvotal::query(&catalogue, extended.axioms[0].left)?;
    let names = |some: &[Concept]| -> Vec<&str> {
        let names = some.iter().map(|&kind| state.name(kind));
        names.collect()
    };
    let sign = |kind: &Concept| if equal.contains(kind) { "= " } else { "" };
    let meets = |kind: &Concept| format!("{}{}\n", sign(kind), state.name(*kind));
    let over = |kind: &Concept| format!("< {}\n", state.name(*kind));
    let lines = kinds.iter().map(meets).chain(above.iter().map(over));
    let json = Json::Object(vec![
        ("kinds", listed(&names(&kinds))),
        ("equal", listed(&names(&equal))),
        ("above", listed(&names(&above))),
    ]);
    Ok(Report::done(lines.collect(), json))
}
