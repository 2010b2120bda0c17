//! Two books joined: the single list of rules is made here from what the reader says of each book, searched, and the line judged.

use crate::book::{to_hex, Source};
use crate::damage::damage;
use crate::exact::{floors, Terms};
use crate::families::{busy_source, source};
use crate::judge::{expected_of, turned_back, Expected, Named};
use crate::layout::{signed, TWO};
use crate::planner::{written, LINE};
use crate::prefixes::Way;
use crate::random::Random;
use crate::read::{read_as, Accepted, Entry, Refused};
use crate::stored::source as stored_source;
use std::process::Command;

extern "C" {
    fn vishalneq_joint(
        site: *const u8,
        site_len: usize,
        tenant: *const u8,
        tenant_len: usize,
        out: *mut u8,
        out_len: usize,
    ) -> usize;
}

fn joint(site: &[u8], tenant: &[u8], out: &mut [u8]) -> usize {
    // SAFETY: the slices are live for the call, and `out` is lent for writing to this call alone.
    unsafe { vishalneq_joint(site.as_ptr(), site.len(), tenant.as_ptr(), tenant.len(), out.as_mut_ptr(), out.len()) }
}

/// The line of two books that stand one behind the other, each half of the bytes, for the benchmark.
pub fn joint_halves(books: &[u8], out: &mut [u8]) -> usize {
    let (site, tenant) = books.split_at(books.len() / 2);
    joint(site, tenant, out)
}

/// The line of two books by the library.
fn joint_line(site: &[u8], tenant: &[u8]) -> Result<Vec<u8>, String> {
    written(LINE, |out| joint(site, tenant, out))
}

/// What the line of two books must say.
pub fn expected(site: &[u8], tenant: &[u8], way: Way) -> Expected {
    let refused = |book: &str, r: Refused| turned_back(format!("refused {book} {} {}", r.number, r.record));
    let first = match read_as(&TWO, site) {
        Ok(accepted) => accepted,
        Err(r) => return refused("site", r),
    };
    let second = match read_as(&TWO, tenant) {
        Ok(accepted) => accepted,
        Err(r) => return refused("tenant", r),
    };
    let rules = [named("S", 1, &first), named("T", 10_001, &second)].concat();
    expected_of(&Terms { p: second.terms.p, q: second.terms.q, floors: greater(site, tenant) }, rules, way)
}

/// A book's rules by their names: the letter of the book and the record; the site's rank before the tenant's.
fn named(letter: &str, rank: usize, book: &Accepted) -> Vec<Named> {
    let name = |r: &Entry| Named { name: format!("{letter}{}", r.record), rank: rank + r.record, line: r.line };
    book.rules.iter().map(name).collect()
}

/// Of each floor the greater of the two headers'.
fn greater(site: &[u8], tenant: &[u8]) -> [crate::exact::Line; 2] {
    let floor = |book: &[u8], at: usize| signed(&book[at..at + 2]);
    let most = |at| floor(site, at).max(floor(tenant, at));
    floors(most(10), most(12))
}

/// Judges the line of two books, wherever it comes from, and hands it back.
fn judged(name: &str, site: &[u8], tenant: &[u8], way: Way, line: Result<Vec<u8>, String>) -> Result<String, String> {
    let right = expected(site, tenant, way);
    let line = line.and_then(|line| {
        right
            .judge(&line)
            .map(|()| String::from_utf8_lossy(&line).into_owned())
            .map_err(|e| format!("{e}: {}", String::from_utf8_lossy(&line).trim_end()))
    });
    line.map_err(|e| format!("{name}: {e}; right is {}\nsite   {}\ntenant {}", right.shown(), to_hex(site), to_hex(tenant)))
}

/// A stored pair of books with the start of its line.
struct Pair {
    name: &'static str,
    site: Vec<u8>,
    tenant: Vec<u8>,
    line: &'static str,
}

fn with_floors(mut source: Source, lx: i16, ly: i16) -> Vec<u8> {
    (source.lx, source.ly) = (lx, ly);
    source.packed_as(&TWO)
}

fn stored() -> Vec<Pair> {
    let book = |p, q, rules: &[(u8, i16, i16, i32)]| stored_source(p, q, rules).packed_as(&TWO);
    let none = book(0, 0, &[]);
    let low = |rules: &[(u8, i16, i16, i32)]| with_floors(stored_source(0, 0, rules), -32_768, -32_768);
    let most = |c: i32| stored_source(1, 1, &vec![(1, 1, 1, c); 4_095]).packed_as(&TWO);
    let twice = {
        let mut source = stored_source(0, 0, &[(1, 1, 1, 5), (1, 1, 1, 6)]);
        source.rules.iter_mut().for_each(|r| r.label = 7);
        source.packed_as(&TWO)
    };
    let unlawful = book(-32_768, 0, &[]);
    vec![
        Pair { name: "no rules at all", site: none.clone(), tenant: none.clone(), line: "best 0 0 1 0 0\n" },
        Pair {
            name: "the tenant's objective",
            site: book(0, 1, &[(1, 1, 0, 2)]),
            tenant: book(1, 0, &[(1, 0, 1, 3)]),
            line: "best 2 0 1 0 1\n",
        },
        Pair {
            name: "a site that changes nothing",
            site: low(&[]),
            tenant: book(1, 1, &[(1, 1, 2, 8), (1, 3, 1, 9)]),
            line: "best 2 3 1 1 1\n",
        },
        Pair {
            name: "floors from either book",
            site: with_floors(stored_source(0, 0, &[]), 3, -9),
            tenant: with_floors(stored_source(-1, -1, &[]), -5, 4),
            line: "best 3 4 1 0 0\n",
        },
        Pair {
            name: "floor of the site breaks the tenant",
            site: with_floors(stored_source(0, 0, &[]), 5, 0),
            tenant: book(0, 0, &[(1, 1, 0, 4)]),
            line: "impossible 1 1 0 2 X 1 T1 1\n",
        },
        Pair {
            name: "a witness from both books",
            site: book(0, 0, &[(1, 1, 1, 3)]),
            tenant: book(1, 0, &[(2, 1, 1, 4)]),
            line: "impossible 2 1 1 2 S1 1 T1 1\n",
        },
        Pair {
            name: "equal labels across the books",
            site: book(0, 0, &[(1, 1, 0, 4)]),
            tenant: book(1, 1, &[(1, 0, 1, 4)]),
            line: "best 4 4 1 0 2\n",
        },
        Pair { name: "4,095 rules each", site: most(9), tenant: most(8), line: "best 0 8 1 1 1\n" },
        Pair {
            name: "the last of 8,190 rules",
            site: most(9),
            tenant: {
                let mut s = stored_source(1, 1, &vec![(1, 1, 1, 9); 4_095]);
                s.rules[4_094].c = 2;
                s.packed_as(&TWO)
            },
            line: "best 0 2 1 1 1\n",
        },
        Pair {
            name: "a refused site before a refused tenant",
            site: twice.clone(),
            tenant: unlawful.clone(),
            line: "refused site 12 2\n",
        },
        Pair {
            name: "a refused tenant of an impossible site",
            site: book(0, 0, &[(1, 0, 0, -1)]),
            tenant: twice,
            line: "refused tenant 12 2\n",
        },
        Pair { name: "the site's objective is tested", site: unlawful.clone(), tenant: none.clone(), line: "refused site 4 0\n" },
        Pair { name: "the tenant's objective is tested", site: none.clone(), tenant: unlawful, line: "refused tenant 4 0\n" },
        Pair {
            name: "a site of version 1",
            site: stored_source(0, 0, &[]).packed(),
            tenant: none.clone(),
            line: "refused site 1 0\n",
        },
        Pair { name: "an empty tenant", site: none, tenant: Vec::new(), line: "refused tenant 1 0\n" },
    ]
}

/// Each stored pair by its line, and by the search.
fn stored_pairs(line_of: impl Fn(&[u8], &[u8]) -> Result<Vec<u8>, String>) -> Result<u64, String> {
    let pairs = stored();
    for Pair { name, site, tenant, line } in &pairs {
        let seen = judged(name, site, tenant, Way::OnePass, line_of(site, tenant))?;
        if seen != *line {
            return Err(format!("{name}: stored is {line}, said is {seen}"));
        }
    }
    Ok(pairs.len() as u64)
}

/// Two random books of up to `most` rules each; in one pair of six a book is damaged.
fn random_pair(random: &mut Random, most: usize) -> (Vec<u8>, Vec<u8>) {
    let mut book = || {
        let n = random.below(most + 1);
        let (_, source) = if random.one_in(5) { busy_source(&TWO, random, n.max(4)) } else { source(&TWO, random, n) };
        let mut book = source.scattered_as(&TWO, 9, random);
        if random.one_in(12) {
            damage(&TWO, random, &mut book);
        }
        book
    };
    (book(), book())
}

/// Random pairs of books, their lines judged.
fn random_pairs(seed: u64, pairs: u64, most: usize) -> Result<u64, String> {
    let mut random = Random::new(seed);
    for i in 0..pairs {
        let (site, tenant) = random_pair(&mut random, most);
        let way = if most <= 6 || i % 64 == 0 && most < 40 { Way::Anew } else { Way::OnePass };
        judged("random books", &site, &tenant, way, joint_line(&site, &tenant))?;
    }
    Ok(pairs)
}

/// The library's function on stored and random pairs, short and long. A buffer that is a byte too short must stay as it was.
pub fn library(seed: u64, short: u64, long: u64, longest: u64) -> Result<String, String> {
    let stored = stored_pairs(joint_line)?;
    for Pair { site, tenant, .. } in stored_short() {
        if !written(LINE - 1, |out| joint(&site, &tenant, out))?.is_empty() {
            return Err("a short buffer was filled".into());
        }
    }
    let short = random_pairs(seed, short, 6)?;
    let long = random_pairs(seed ^ 1 << 61, long, 255)?;
    let longest = random_pairs(seed ^ 1 << 62, longest, 4_095)?;
    Ok(format!("{stored} stored pairs of books, {short} of 0 to 6 rules each, {long} of 0 to 255, {longest} of 0 to 4,095"))
}

fn stored_short() -> Vec<Pair> {
    stored().into_iter().filter(|p| p.site.len() + p.tenant.len() < 1_000).collect()
}

/// What the program writes to standard output and to standard error, given files of these bytes. It must end normally.
fn in_files(path: &str, books: &[&[u8]]) -> Result<(Vec<u8>, Vec<u8>), String> {
    let folder = std::env::temp_dir().join(format!("joint-{}", std::process::id()));
    std::fs::create_dir_all(&folder).map_err(|e| e.to_string())?;
    let names: Vec<_> = (0..books.len()).map(|i| folder.join(format!("{i}.book"))).collect();
    for (name, book) in names.iter().zip(books) {
        std::fs::write(name, book).map_err(|e| e.to_string())?;
    }
    let output = Command::new(path).args(&names).output().map_err(|e| format!("{path}: {e}"));
    std::fs::remove_dir_all(&folder).map_err(|e| e.to_string())?;
    let output = output?;
    if !output.status.success() {
        return Err(format!("{}, {}", output.status, String::from_utf8_lossy(&output.stderr)));
    }
    Ok((output.stdout, output.stderr))
}

/// The program: stored and some random pairs as files; a file that is missing has a line on standard error and none on standard output.
pub fn program(path: &str, seed: u64) -> Result<u64, String> {
    let mut tried = stored_pairs(|site, tenant| in_files(path, &[site, tenant]).map(|(out, _)| out))?;
    let mut random = Random::new(seed);
    for _ in 0..100 {
        let (site, tenant) = random_pair(&mut random, 12);
        judged("random books", &site, &tenant, Way::OnePass, in_files(path, &[&site, &tenant]).map(|(out, _)| out))?;
        tried += 1;
    }
    let long = vec![0; 70_000];
    judged("a site that is too long", &long, &long, Way::OnePass, in_files(path, &[&long, &long]).map(|(out, _)| out))?;
    for files in [&[][..], &[&long[..14]]] {
        let (out, err) = in_files(path, files)?;
        if !out.is_empty() || err.is_empty() {
            return Err("a missing file must have a line on standard error alone".into());
        }
    }
    Ok(tried + 3)
}
