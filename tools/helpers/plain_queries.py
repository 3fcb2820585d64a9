"""A plain program in Rust with columns and dictionaries in memory, which answers the measured queries with no more than their loops.

It reads rows as words, makes its columns, answers each case so many times, and prints for each its least time in nanoseconds and its
rows. It is compiled in a temporary folder.
"""
import pathlib
import shutil
import subprocess

import usage

SOURCE = r'''
use std::collections::HashMap;
use std::hint::black_box;
use std::io::Read;
use std::time::Instant;

struct Table { countries: Vec<String>, users: Vec<String>, country: Vec<u32>, user: Vec<u32>, ok: Vec<bool>, clicks: Vec<i32>, spent: Vec<i64>, ts: Vec<i64>, of_country: Vec<Vec<u32>> }

fn id(text: &str, ids: &mut HashMap<String, u32>, texts: &mut Vec<String>) -> u32 {
    if let Some(id) = ids.get(text) { return *id; }
    let id = texts.len() as u32;
    ids.insert(text.to_string(), id);
    texts.push(text.to_string());
    id
}

fn read() -> Table {
    let mut all = String::new();
    std::io::stdin().read_to_string(&mut all).unwrap();
    let mut t = Table { countries: vec![], users: vec![], country: vec![], user: vec![], ok: vec![], clicks: vec![], spent: vec![], ts: vec![], of_country: vec![] };
    let (mut countries, mut users) = (HashMap::new(), HashMap::new());
    for line in all.lines() {
        let w: Vec<&str> = line.split(' ').collect();
        let place = t.country.len() as u32;
        let country = id(w[0], &mut countries, &mut t.countries);
        if country as usize == t.of_country.len() { t.of_country.push(vec![]); }
        t.of_country[country as usize].push(place);
        t.country.push(country);
        t.user.push(id(w[1], &mut users, &mut t.users));
        t.ok.push(w[2] == "1");
        t.clicks.push(w[3].parse().unwrap());
        t.spent.push(w[4].parse().unwrap());
        t.ts.push(w[5].parse().unwrap());
    }
    t
}

fn by_country(t: &Table) -> String {
    let which = t.countries.iter().position(|c| c == "fr").unwrap();
    let rows = &t.of_country[which];
    let sum: i128 = rows.iter().map(|r| t.spent[*r as usize] as i128).sum();
    format!("[[{},{}]]", rows.len(), sum)
}

fn all_countries(t: &Table) -> String {
    let n = t.countries.len();
    let (mut count, mut sum, mut least, mut most) = (vec![0u64; n], vec![0i128; n], vec![i32::MAX; n], vec![i64::MIN; n]);
    for r in 0..t.country.len() {
        let g = t.country[r] as usize;
        count[g] += 1;
        sum[g] += t.spent[r] as i128;
        least[g] = least[g].min(t.clicks[r]);
        most[g] = most[g].max(t.ts[r]);
    }
    let mut order: Vec<usize> = (0..n).collect();
    order.sort_by(|a, b| sum[*b].cmp(&sum[*a]).then(t.countries[*a].cmp(&t.countries[*b])));
    let rows: Vec<String> = order.iter().take(10).map(|g| format!("[\"{}\",{},{},{},{}]", t.countries[*g], count[*g], sum[*g], least[*g], most[*g])).collect();
    format!("[{}]", rows.join(","))
}

fn top_users(t: &Table, limit: usize, all: bool) -> String {
    let mut of: HashMap<&str, (u64, i128)> = HashMap::new();
    for r in 0..t.user.len() {
        if all || (t.ok[r] && t.clicks[r] >= 20 && t.clicks[r] <= 69) {
            let known = of.entry(t.users[t.user[r] as usize].as_str()).or_insert((0, 0));
            known.0 += 1;
            known.1 += t.spent[r] as i128;
        }
    }
    let mut order: Vec<(&str, (u64, i128))> = of.into_iter().collect();
    order.sort_by(|a, b| b.1.1.cmp(&a.1.1).then(a.0.cmp(b.0)));
    let rows: Vec<String> = order.iter().take(limit).map(|(u, k)| if all { format!("[\"{}\",{},{}]", u, k.0, k.1) } else { format!("[\"{}\",{}]", u, k.1) }).collect();
    format!("[{}]", rows.join(","))
}

fn filtered(t: &Table) -> String {
    let which: Vec<bool> = t.countries.iter().map(|c| c == "de" || c == "it").collect();
    let count = (0..t.ts.len()).filter(|r| !(which[t.country[*r] as usize] || t.clicks[*r] > 87) && t.ts[*r] < MOMENT).count();
    format!("[[{}]]", count)
}

fn one_user(t: &Table) -> String {
    let user = t.users.iter().position(|u| u == "u1955").map(|u| u as u32);
    let mut of: HashMap<(bool, u32), (u64, i64)> = HashMap::new();
    for r in 0..t.user.len() {
        if Some(t.user[r]) == user {
            let known = of.entry((t.ok[r], t.country[r])).or_insert((0, i64::MIN));
            known.0 += 1;
            known.1 = known.1.max(t.ts[r]);
        }
    }
    let mut order: Vec<_> = of.into_iter().collect();
    order.sort_by(|a, b| a.0.0.cmp(&b.0.0).then(t.countries[a.0.1 as usize].cmp(&t.countries[b.0.1 as usize])));
    let rows: Vec<String> = order.iter().take(40).map(|(k, v)| format!("[{},\"{}\",{},{}]", k.0, t.countries[k.1 as usize], v.0, v.1)).collect();
    format!("[{}]", rows.join(","))
}

fn dear(t: &Table) -> String {
    let (mut sum, mut least, mut most) = (0i128, None, None);
    for r in 0..t.spent.len() {
        if t.spent[r] >= 91305 {
            sum += t.spent[r] as i128;
            least = Some(least.map_or(t.clicks[r], |l: i32| l.min(t.clicks[r])));
            most = Some(most.map_or(t.ts[r], |m: i64| m.max(t.ts[r])));
        }
    }
    format!("[[{},{},{}]]", sum, least.unwrap(), most.unwrap())
}

fn main() {
    let words: Vec<String> = std::env::args().collect();
    let (cases, turns) = (&words[1], words[2].parse::<usize>().unwrap());
    let t = read();
    for case in cases.split(',') {
        let (mut least, mut answer) = (u128::MAX, String::new());
        for _turn in 0..turns {
            let begun = Instant::now();
            let t = black_box(&t);
            answer = match case {
                "indexed" => by_country(t),
                "countries" => all_countries(t),
                "users" => top_users(t, 20, false),
                "filtered" => filtered(t),
                "one-user" => one_user(t),
                "dear" => dear(t),
                _ => top_users(t, 10, true),
            };
            least = least.min(begun.elapsed().as_nanos());
        }
        println!("{} {} {}", case, least, answer);
    }
}
'''


def compiled(folder, moment):
    """The path of the program, compiled in a folder; ends the tool where there is no compiler."""
    if shutil.which("rustc") is None:
        usage.fail("there is no rustc on the PATH, which compiles the plain program")
    source, program = pathlib.Path(folder, "plain.rs"), pathlib.Path(folder, "plain")
    source.write_text(SOURCE.replace("MOMENT", str(moment)))
    subprocess.run(["rustc", "-O", "-o", program, source], check=True)
    return program
