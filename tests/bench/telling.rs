//! What entities and stations report, in words.
use crate::words::text;
use cfdp_directives::Indication;
use cfdp_header::TransactionId;
use cfdp_store::MemoryInbox;
use std::alloc::AllocError;

/// Writes what was indicated, or only what was indicated of one transaction.
pub fn tell_all(
    told: &[Indication],
    only: Option<TransactionId>,
    out: &mut String,
) -> Result<(), AllocError> {
    for told in told {
        tell(told, only, out)?;
    }
    Ok(())
}

/// Writes what was indicated, with the code of its condition, unless it is of another transaction
/// than the only one that is asked for.
pub fn tell(
    told: &Indication,
    only: Option<TransactionId>,
    out: &mut String,
) -> Result<(), AllocError> {
    let (word, id, number) = match told {
        Indication::Transaction(id) => ("transaction", *id, None),
        Indication::EofSent(id) => ("eof-sent", *id, None),
        Indication::MetadataRecv { id, size, .. } => ("metadata", *id, Some(*size)),
        Indication::EofRecv(id) => ("eof-recv", *id, None),
        Indication::Finished { id, condition, .. } => {
            ("finished", *id, Some(u64::from(condition.code())))
        }
        Indication::Resumed(id) => ("resumed", *id, None),
        Indication::Suspended(id, why) => ("suspended", *id, Some(u64::from(why.code()))),
        Indication::Fault(id, why) => ("fault", *id, Some(u64::from(why.code()))),
        Indication::Abandoned(id, why) => ("abandoned", *id, Some(u64::from(why.code()))),
        Indication::Progress(id, octets) => ("progress", *id, Some(*octets)),
    };
    if only.unwrap_or(id) != id {
        return Ok(());
    }
    write!(out, " {word} {}:{}", id.source, id.number)?;
    if let Some(number) = number {
        write!(out, " {number}")?;
    }
    if let Indication::Finished {
        delivery,
        status,
        ..
    } = told
    {
        write!(out, " {delivery:?} {status:?}")?;
    }
    write!(out, "\n")
}

/// Writes each published file: its name and its octets.
pub fn tell_files(inbox: &MemoryInbox, out: &mut String) -> Result<(), AllocError> {
    for (name, octets) in inbox.published().entries() {
        write!(out, " {} {}\n", text(name), text(octets))?;
    }
    Ok(())
}
