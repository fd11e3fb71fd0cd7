//! Does the rows of a file by the crate of the installed package: rows FILE. It prints as rows.c does, and with a second
//! word each refusal's sentence.

use std::collections::HashMap;
use std::process::ExitCode;

use dsa_planner::{check, count_pieces, judge, plan_into, plan_list};
use dsa_planner::{BatchPrice, Certificate, Refusal, Settings};

type Row<'a> = HashMap<&'a str, &'a str>;

fn bytes(row: &Row, name: &str) -> Vec<u8> {
    let text = row.get(name).copied().unwrap_or("");
    let byte = |at: usize| u8::from_str_radix(&text[at..at + 2], 16).expect("hexadecimal text");
    (0..text.len()).step_by(2).map(byte).collect()
}

fn numbers(row: &Row, name: &str) -> Vec<u64> {
    let text = row.get(name).copied().unwrap_or("");
    text.split_whitespace()
        .map(|it| it.parse().expect("a number"))
        .collect()
}

fn hex(bytes: &[u8]) -> String {
    bytes.iter().map(|byte| format!("{byte:02x}")).collect()
}

fn planned(settings: &Settings, list: &[u8]) -> Result<String, Refusal> {
    let it = plan_list(settings, list)?;
    let count = count_pieces(settings, list) as usize;
    let (mut portal, mut staging) = (vec![0xee; 64 * count], vec![0xee; 80 * count]);
    let summary = plan_into(settings, list, &mut portal, &mut staging)?;
    assert_eq!((summary.cost, count), (it.cost, it.marks.len()));
    assert_eq!(portal[..summary.portal_len as usize], it.portal);
    assert_eq!(staging[..summary.staging_len as usize], it.staging);
    let prices: String = it.certificate.prices.iter().map(|p| format!(" {p}")).collect();
    let pair = |pair: &Option<(u32, u32)>| {
        let (first, second) = pair.unwrap_or((u32::MAX, u32::MAX));
        format!(" {first} {second}")
    };
    let pairs: String = it.certificate.pairs.iter().map(pair).collect();
    let texts = [&it.portal, &it.staging, &it.marks].map(|bytes| hex(bytes));
    let [portal, staging, marks] = texts;
    let cost = it.cost;
    Ok(format!("cost {cost} portal {portal} staging {staging} marks {marks} prices{prices} pairs{pairs}"))
}

fn answer(row: &Row) -> Result<String, Refusal> {
    let (numbers_of, table) = (numbers(row, "settings"), numbers(row, "table"));
    let by_size = numbers_of[0] == 2;
    let settings = Settings {
        greatest_batch: numbers_of[1],
        greatest_transfer: numbers_of[2],
        lone: numbers_of[3],
        batch: if by_size { BatchPrice::BySize(&table) } else { BatchPrice::Flat(numbers_of[4]) },
        fence: numbers_of[5],
        staging: numbers_of[6],
    };
    let cost = match row["do"] {
        "plan" => return planned(&settings, &bytes(row, "list")),
        "judge" => judge(&settings, &bytes(row, "list"), &bytes(row, "marks"))?,
        _ => {
            let pairs = numbers(row, "pairs");
            let pair = |it: &[u64]| (it[0] as u32, it[1] as u32);
            let pairs = pairs.chunks(2).map(pair);
            let certificate = Certificate {
                version: numbers(row, "version")[0],
                prices: numbers(row, "prices"),
                pairs: pairs.map(|it| (it != (u32::MAX, u32::MAX)).then(|| it)).collect(),
            };
            check(&settings, &bytes(row, "portal"), &bytes(row, "staging"), &certificate)?
        }
    };
    Ok(format!("cost {cost}"))
}

fn main() -> ExitCode {
    let words: Vec<String> = std::env::args().collect();
    let text = std::fs::read_to_string(&words[1]).expect("a file of rows");
    let (mut row, mut rows, mut wrong) = (Row::new(), 0, 0);
    for line in text.lines().filter(|line| !line.is_empty() && !line.starts_with('#')) {
        let (key, rest) = line.split_once(' ').expect("a word and a blank");
        row.insert(key, rest);
        if key != "answer" {
            continue;
        }
        let got = answer(&row).unwrap_or_else(|it| {
            if words.len() > 2 {
                println!("{}: {it}", row["row"]);
            }
            let inner = it.inner.map_or(0, |cause| cause.number());
            format!("refused {} {inner} {} {}", it.cause.number(), it.first, it.second)
        });
        rows += 1;
        if got != rest {
            wrong += 1;
            println!("{}: {got}, and not {rest}", row["row"]);
        }
        row.clear();
    }
    println!("{rows} rows, {wrong} wrong");
    ExitCode::from(u8::from(wrong != 0 || rows == 0))
}
