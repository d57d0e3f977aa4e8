//! From the sheets of a request to its report, for the verbs that say something
//! of each sheet.

use super::outcome::Row;
use super::ranking::ranked;
use super::record::RecordForm;
use super::report::{folders, worse, Report};
use super::sheets::gather;
use crate::input::network::Network;
use crate::line::options::{sheet_form, CSV, JSON, RANKED};
use crate::line::table::Request;
use crate::output::fault::refused;
use crate::status::{Status, Trouble};

/// Rates every sheet, lets the verb judge those that are rated, and prints all.
/// Without a record a refused network is refused once and no sheet has a line.
pub fn judge(
    request: &Request,
    network: &Network,
    budget: Option<u32>,
    judged: impl FnOnce(Vec<Row>) -> Vec<Row>,
) -> Result<Status, Trouble> {
    let gathered = gather(&request.sheets, sheet_form(request));
    let report = Report {
        network,
        budget,
        form: record_form(request),
        many: gathered.many,
    };
    if let (None, true, Err(refusal)) = (report.form, report.many, engine::read(network.bytes())) {
        return refused(refusal, network);
    }
    let of_folders = folders(&gathered);
    let rated = |named| Row::rated(network.bytes(), named);
    let rows = judged(gathered.sheets.into_iter().map(rated).collect());
    let rows = match request.has(&RANKED) {
        true => ranked(rows),
        false => rows,
    };
    let of_sheets = match (report.form, report.many, rows.as_slice()) {
        (None, false, [row]) => report.print_one(row),
        _ => report.print(&rows),
    };
    Ok(worse(of_folders, of_sheets?))
}

fn record_form(request: &Request) -> Option<RecordForm> {
    match (request.has(&CSV), request.has(&JSON)) {
        (true, _) => Some(RecordForm::Csv),
        (_, true) => Some(RecordForm::Json),
        _ => None,
    }
}
