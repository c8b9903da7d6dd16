//! What two files say differently.

use super::pairs::Pairs;
use super::read_classified;
use crate::arguments::Given;
use crate::failure::Failure;
use crate::files;
use crate::json::Json;
use crate::{Report, Streams};

/// `diff A B`
pub fn diff(given: &Given, streams: &mut Streams<'_>) -> Result<Report, Failure> {
    let [one, other] = [given.operand(0), given.operand(1)];
    if files::is_stream(one) && files::is_stream(other) {
        return Err(Failure::Usage(
            "only one of A and B can be `-`; name the other's file".into(),
        ));
    }
    let one = read_classified(one, streams)?;
    let other = read_classified(other, streams)?;
    let pairs = Pairs::between(&one, &other)?;
    Ok(Report {
        status: if pairs.is_empty() { 0 } else { 1 },
        text: pairs.text() + "\n",
        json: Json::Object(pairs.fields()),
    })
}
