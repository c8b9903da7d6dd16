//! What a refusal's number means.

use girvotal::Question;

use crate::arguments::Given;
use crate::failure::{self, Failure};
use crate::json::Json;
use crate::{Report, Streams};

/// `explain N`
pub fn explain(given: &Given, _: &mut Streams<'_>) -> Result<Report, Failure> {
    let text = given.text(0)?;
    let unknown = || {
        let known = "they are 1 to 20, 22, 23 and 65535";
        Failure::Usage(format!("no refusal has the number `{text}`; {known}"))
    };
    let result: usize = text.parse().map_err(|_| unknown())?;
    if result == 0 {
        let json = Json::Object(vec![("number", 0.into()), ("sentence", "accepted".into())]);
        return Ok(Report::done("0: accepted\n".into(), json));
    }
    let (number, record) = (result % 65_536, result / 65_536);
    let question = Question::of(number).ok_or_else(unknown)?;
    if record != 0 && !question.names_record() {
        return Err(unknown());
    }
    let (name, sentence, advice) = (question.name(), question.sentence(), question.advice());
    let command = failure::advice(question);
    let mut text = format!(
        "{number} ({name}): {sentence}\nWhat to do: {advice}\nWith the command: {command}\n"
    );
    let mut fields = vec![
        ("number", number.into()),
        ("name", name.into()),
        ("sentence", sentence.into()),
        ("advice", advice.into()),
        ("command", command.into()),
    ];
    if result != number {
        text += &format!("At fault: record {record}\n");
        fields.push(("record", record.into()));
    }
    Ok(Report::done(text, Json::Object(fields)))
}
