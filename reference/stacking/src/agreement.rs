//! Landlords' service agreements (02, change 3): record kind 12 on a file. It
//! runs no evaluation.

use crate::answer::{refuse_if, Answer};
use crate::file::{File, NO_AGREEMENT};
use crate::notice::{Code, NoticeWriter};
use crate::record::Agreement;

/// Row 18, and then the step.
pub fn record(
    file: &mut File,
    agreement: Agreement,
    notices: &mut NoticeWriter,
) -> Result<(), Answer> {
    match agreement {
        Agreement::Establish { retailer } => establish(file, retailer, notices),
        Agreement::Delete { retailer } => {
            refuse_if(retailer != file.agreement, Answer::AgreementOfAnother)?;
            delete(file, retailer, notices);
        }
    }
    Ok(())
}

/// Detail 1. A retailer that loses the agreement to another one hears of it first.
fn establish(file: &mut File, retailer: u64, notices: &mut NoticeWriter) {
    let earlier = file.agreement;
    if earlier != NO_AGREEMENT && earlier != retailer {
        notices.write_of_premise(Code::AgreementReplaced, file.premise, earlier);
    }
    file.agreement = retailer;
    notices.write_of_premise(Code::Agreement, file.premise, retailer);
}

/// Detail 2.
fn delete(file: &mut File, retailer: u64, notices: &mut NoticeWriter) {
    file.agreement = NO_AGREEMENT;
    notices.write_of_premise(Code::Agreement, file.premise, retailer);
}
