//! What came is held to the row in all its parts: answer, output and state.

use cases::answer::Answer;
use cases::judge::{judge, Column, Fault, Wanted};
use cases::modelled::Modelled;
use cases::state::State;
use cases::table::{read, Row};
use cases::through::{came, Came, Output, Through};

fn row(text: &str) -> Row {
    let entry = read("f", &format!("= a sentence\n{text}")).remove(0);
    entry.row.unwrap_or_else(|why| panic!("{why}"))
}

/// The columns that are told of what came.
fn told(row: &Row, came: &Came) -> Vec<Column> {
    judge(row, &Wanted::of(row), came, &Modelled).iter().map(Fault::column).collect()
}

#[test]
fn an_output_is_touched_where_the_answer_stands_and_nowhere_else() {
    let mut output = Output::of(8);
    assert_eq!(output.touched_from(0), None);
    output.lend()[2] = 0;
    assert_eq!((output.touched_from(0), output.touched_from(3)), (Some(2), None));
    assert_eq!((output.written(8).map(|bytes| bytes.len()), output.written(9)), (Some(8), None));
    let refused = came(Answer::Refused(14), State::None, &output);
    assert_eq!(refused.touched, Some(2));
    let written = came(Answer::Bytes(vec![0; 3]), State::None, &output);
    assert_eq!(written.touched, None);
}

#[test]
fn each_part_of_what_came_is_told() {
    let row = row("server 0; T8 promise 8 | take Inquire T8 | NotYet T8 server 0 | nothing");
    let right = || Modelled.call(&row.before, &row.lent).expect("the model is lent it");
    assert_eq!(told(&row, &right()), []);
    assert_eq!(told(&row, &Came { touched: Some(12), ..right() }), [Column::Answer]);
    assert_eq!(told(&row, &Came { answer: Answer::Refused(14), ..right() }), [Column::Answer]);
    assert_eq!(
        told(&row, &Came { answer: Answer::Odd("refused 14, with a length".to_string()), ..right() }),
        [Column::Answer]
    );
    let other =
        read("f", "= a sentence\nserver 0; T8 promise 16 | run | 0 | nothing").remove(0).row.expect("a row").before;
    assert_eq!(told(&row, &Came { after: other, ..right() }), [Column::Change]);
}
