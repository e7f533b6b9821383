//! Calls and answers as terms of the Maude model, and lists of them as modules.

use simulator_tests::form::Form;

/// Maude's parser takes longer than in proportion to a term's length, so a list is given in pieces of so many elements.
const PIECE: usize = 50;

/// The term of a call that is a form: the model has no text.
pub fn request(call: &[u8]) -> String {
    let text = str::from_utf8(call).expect("a form is text");
    match Form::read(call).expect("the call is a form") {
        Form::Node { node, gateway, has, needs } => {
            let kind = if gateway { "gate" } else { "host" };
            format!("node({node}, {kind}, has({}), needs({}))", credentials(&has), credentials(&needs))
        }
        _ => term(text),
    }
}

/// The term of the lines that answer a call.
pub fn answer(lines: &[String]) -> String {
    let terms: Vec<String> = lines.iter().map(|line| term(line)).collect();
    match lines.last().map(String::as_str) {
        // the show's own end is the empty set of associations
        Some("(end)") => format!("shown({})", terms.join(" & ")),
        _ => terms.concat(),
    }
}

/// `(step 1 3)` as `step(1, 3)`, and `(ok)` as `ok`.
fn term(form: &str) -> String {
    let inner = form.trim_start_matches('(').trim_end_matches(')');
    match inner.split_once(' ') {
        Some((word, parts)) => format!("{word}({})", parts.replace(' ', ", ")),
        None => inner.to_string(),
    }
}

fn credentials(numbers: &[u64]) -> String {
    match numbers {
        [] => "none".to_string(),
        _ => numbers.iter().map(u64::to_string).collect::<Vec<_>>().join(" "),
    }
}

/// A module with the constant `input0`, a list of this sort with these elements; each piece ends in the next.
pub fn module(sort: &str, elements: &[String]) -> String {
    let pieces = elements.chunks(PIECE);
    let last = pieces.len();
    let names: String = (0..=last).map(|piece| format!(" input{piece}")).collect();
    let equation = |(piece, elements): (usize, &[String])| {
        format!("eq input{piece} = {} then input{} .\n", elements.join(" then "), piece + 1)
    };
    let equations: String = pieces.enumerate().map(equation).collect();
    format!("fmod INPUT is\nprotecting CALLS .\nops{names} : -> {sort} .\n{equations}eq input{last} = end .\nendfm\n")
}
