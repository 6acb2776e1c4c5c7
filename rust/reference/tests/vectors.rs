//! The `prepare` and `decide` lines of the vectors, each with its answer on the next line.

use reference::{decide, prepare, Call, Decision, Part, Prepared, Question};

fn lines(file: &str) -> Vec<String> {
    let path = format!("{}/../difftest/vectors/{file}", env!("CARGO_MANIFEST_DIR"));
    let text = std::fs::read_to_string(&path).expect(&path);
    text.lines().map(str::to_string).collect()
}

/// Octets from hex, "`-` for none"; "`(N)` inside a hex string stands for N zero octets".
fn octets(mut hex: &str) -> Vec<u8> {
    let mut octets = Vec::new();
    if hex == "-" {
        return octets;
    }
    while !hex.is_empty() {
        if let Some(rest) = hex.strip_prefix('(') {
            let (count, rest) = rest.split_once(')').unwrap();
            octets.resize(octets.len() + count.parse::<usize>().unwrap(), 0);
            hex = rest;
        } else {
            octets.push(u8::from_str_radix(&hex[..2], 16).unwrap());
            hex = &hex[2..];
        }
    }
    octets
}

fn hex(octets: &[u8]) -> String {
    octets.iter().map(|octet| format!("{octet:02x}")).collect()
}

fn part(part: Part) -> String {
    format!("{},{}", part.start, part.length)
}

fn question(question: &Question) -> String {
    let Question {
        signed,
        point_type,
        key,
        signature,
    } = question;
    format!(
        "{} {point_type} {} {}",
        part(*signed),
        hex(key),
        part(*signature)
    )
}

fn prepare_answer(call: &Call) -> String {
    let (number, prepared) = match prepare(call) {
        Ok(prepared) => (0, prepared),
        Err(number) => (number, Prepared::default()),
    };
    let [message, certificate] = [&prepared.message, &prepared.certificate].map(question);
    format!("{number} {message} {certificate}")
}

fn decide_answer(call: &Call, verdict: u8, certificate_verdict: u8) -> String {
    match decide(call, verdict, certificate_verdict) {
        Ok(Decision {
            payload,
            signer,
            permission,
            generation_time,
        }) => format!(
            "0 {} {} {} {permission} {generation_time}",
            payload.start,
            payload.length,
            hex(&signer)
        ),
        Err(number) => format!("{number} 0 0 0000000000000000 0 0"),
    }
}

/// The answer to a line, unless it asks for another operation.
fn answer(line: &str) -> Option<String> {
    let words: Vec<&str> = line.split(' ').collect();
    let operation = words[0];
    if operation != "prepare" && operation != "decide" {
        return None;
    }
    let (store, message) = (octets(words[1]), octets(words[2]));
    let call = Call {
        store: &store,
        message: &message,
        now: words[3].parse().unwrap(),
        latitude: words[4].parse().unwrap(),
        longitude: words[5].parse().unwrap(),
        age: words[6].parse().unwrap(),
    };
    if operation == "prepare" {
        assert_eq!(words.len(), 7);
        return Some(prepare_answer(&call));
    }
    assert_eq!(words.len(), 9);
    let [verdict, certificate_verdict] = [7, 8].map(|word| words[word].parse().unwrap());
    Some(decide_answer(&call, verdict, certificate_verdict))
}

/// Holds every answer of a file against ours, and counts the requests.
fn run(file: &str) -> usize {
    let lines = lines(file);
    let mut count = 0;
    for (number, line) in lines.iter().enumerate() {
        if let Some(answer) = answer(line) {
            let expected = lines[number + 1].strip_prefix("= ").unwrap();
            assert_eq!(answer, expected, "{file}, line {}", number + 1);
            count += 1;
        }
    }
    count
}

#[test]
fn operations() {
    assert_eq!(run("operations.txt"), 103);
}

#[test]
fn open_points() {
    assert_eq!(run("open-points.txt"), 34);
}
