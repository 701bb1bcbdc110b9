//! Each wrong rearrangement is told, by a row and by random traces alone.

use super::Wrong;
use crate::cases;
use crate::columns::{self, rows};
use crate::comparison::{Compared, Comparison};
use crate::counts::Counts;
use crate::random::Random;

/// Each with the row that tells it first.
const ALL: [(Wrong, &str); 37] = [
    (Wrong::EmptyRecordAllowed, "no trace: empty record"),
    (Wrong::ZeroCountAllowedInColumns, "no columns: empty record"),
    (Wrong::PairsMayRepeat, "no trace: pair repeated"),
    (Wrong::StepsMayFall, "no trace: step falls"),
    (Wrong::StepBeforeMoment, "by column: step and messages fall as the moment rises"),
    (Wrong::OneRecordAMoment, "by column: two steps of a moment"),
    (Wrong::StepsBeginAt0, "by column: step and messages fall as the moment rises"),
    (Wrong::PairsOfColumnsUnjudged, "no columns: pair repeated"),
    (Wrong::MessagesMayFall, "no trace: messages fall by port"),
    (Wrong::ValuesMayFall, "no trace: messages fall by value"),
    (Wrong::EqualMessagesRefused, "by column: equal messages"),
    (Wrong::MessagesRiseThroughRecords, "by column: step and messages fall as the moment rises"),
    (Wrong::MessagesOfColumnsUnjudged, "no columns: messages fall"),
    (Wrong::OnlyTheLastOfMany, "a fall at each of many messages"),
    (Wrong::Port4Allowed, "no trace: port 4"),
    (Wrong::PortsOfColumnsUnjudged, "no columns: port 4"),
    (Wrong::ComparedFromTheLowByte, "by column: numbers that rise by a higher byte alone"),
    (Wrong::MomentsHaveASign, "by column: the highest numbers"),
    (Wrong::LimitOfMoments, "by column: moment 1,000,000,000,001"),
    (Wrong::LimitOfSteps, "by column: step 1,024 and none before it"),
    (Wrong::LimitOfMessages, "by column: 4,097 messages in a record"),
    (Wrong::EmptyTraceRefused, "by column: empty trace"),
    (Wrong::CutRecordDropped, "no trace: cut in a head"),
    (Wrong::LeftOverAllowed, "no columns: no record, and a byte left over"),
    (Wrong::UnderFourBytesAreNoRecord, "no columns: no byte"),
    (Wrong::BufferBeforeTheTrace, "no trace: cut in a head"),
    (Wrong::BufferBeforeTheColumns, "no columns: no record, and a byte left over"),
    (Wrong::NumberOfTheOtherWay, "no columns: no byte"),
    (Wrong::CountsBeforeSteps, "by column: one message"),
    (Wrong::MessagesKeptWhole, "by column: two steps of a moment"),
    (Wrong::HighByteFirst, "by column: one message"),
    (Wrong::RecordCountOfTwoBytes, "by column: 65,536 records"),
    (Wrong::OneByteMoreNeeded, "by column: empty trace"),
    (Wrong::WritesWhatFits, "by column: empty trace"),
    (Wrong::WritesBeforeItJudges, "no trace: cut in a head"),
    (Wrong::ClearsTheRest, "by column: empty trace"),
    (Wrong::TellsTheLengthWith15, "by column: empty trace"),
];

fn comparison_with(wrong: Wrong) -> Comparison {
    let counts = Counts::new(cases::names());
    Comparison::new(Vec::new(), vec![("faulty", Box::new(wrong))], counts)
}

/// The rows, and the traces that are too long to stand in one.
fn rows_alone(wrong: Wrong) -> Compared<()> {
    let (mut comparison, mut random) = (comparison_with(wrong), Random::new(1));
    rows::all(&mut comparison, &mut random)?;
    columns::many_messages(&mut comparison, &mut random)?;
    columns::long_ones(&mut comparison, &mut random)
}

/// In so many random traces a fault must be found.
const RANDOM_TRACES: u64 = 200;

fn random_traces_alone(wrong: Wrong) -> Compared<()> {
    let mut comparison = comparison_with(wrong);
    (0..RANDOM_TRACES).try_for_each(|number| {
        columns::random_trace(&mut comparison, &mut Random::for_case(1, number))
    })
}

#[test]
fn rows_alone_find_what_is_wrong_about_columns() {
    for (wrong, row) in ALL {
        let difference = rows_alone(wrong).expect_err("a row tells the fault");
        assert!(difference.starts_with(&format!("{row}, ")), "{wrong:?} is told by {difference}");
    }
}

#[test]
fn random_traces_alone_find_what_is_wrong_about_columns() {
    // None of them has so many records that the count's third byte is used.
    let shown = ALL.into_iter().filter(|(wrong, _)| *wrong != Wrong::RecordCountOfTwoBytes);
    for (wrong, _) in shown {
        assert!(random_traces_alone(wrong).is_err(), "{wrong:?} was not found");
    }
}

#[test]
fn nothing_is_wrong_about_the_columns_of_the_reference() {
    assert_eq!(rows_alone(Wrong::Nothing), Ok(()));
    assert_eq!(random_traces_alone(Wrong::Nothing), Ok(()));
}
