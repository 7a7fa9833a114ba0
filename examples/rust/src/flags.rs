//! Lines that set settings and ask for them, and their answers by the compiled settings, in the forms of the program's `flags`.

use ciderlater_runtime::settings::SetError;

/// An answer for each line that isn't empty. Each begins where the lines before it left the settings.
pub fn answers(input: &str) -> String {
    let mut builder = crate::first_group();
    let lines = input.lines().filter(|line| !line.is_empty());
    lines
        .map(|line| match line.split(' ').collect::<Vec<_>>()[..] {
            ["set", name, value] => outcome(builder.set(name, value).map(|()| "ok".into())),
            ["enable", name] => outcome(builder.enable(name).map(|()| "ok".into())),
            ["get", name] => outcome(builder.get(name).map(|value| value.to_string())),
            ["toml"] => builder.to_string(),
            _ => "bad\n".into(),
        })
        .collect()
}

fn outcome(outcome: Result<String, SetError>) -> String {
    let answer = outcome.unwrap_or_else(|error| match error {
        SetError::BadName => "unknown".into(),
        SetError::BadType => "kind".into(),
        SetError::BadValue => "value".into(),
    });
    answer + "\n"
}
