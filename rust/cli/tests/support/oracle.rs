//! What `hov show` has to say, by the readings of the rules in `differential` and
//! `reference`: it shares no code with `hov`.

use differential::bundles::{Bundle, Certificate, Field, Layout};
use differential::fields::{self, Fields};
use differential::files::{self, BLOCK, CONTENTS};
use differential::logs::counts_below;
use differential::nets::Certified;
use differential::places::Place;
use reference::{log_rows, Refusal, Row};

/// `1 word`, `2 words`, `no words`.
pub fn count(number: usize, noun: &str) -> String {
    match number {
        0 => format!("no {noun}s"),
        1 => format!("1 {noun}"),
        _ => format!("{number} {noun}s"),
    }
}

fn spaced<T: ToString>(numbers: &[T]) -> String {
    let numbers: Vec<String> = numbers.iter().map(T::to_string).collect();
    numbers.join(" ")
}

/// The first beginning of a word that has these counts, as it is shown.
fn after(words: &[Vec<u8>], counts: &[usize]) -> String {
    let has_counts = |prefix: &&[u8]| {
        let mut found = vec![0; counts.len()];
        prefix
            .iter()
            .for_each(|&event| found[usize::from(event)] += 1);
        found == counts
    };
    let mut prefixes = words
        .iter()
        .flat_map(|word| (0..=word.len()).map(|end| &word[..end]));
    match prefixes.find(has_counts) {
        Some(prefix) if !prefix.is_empty() => spaced(prefix),
        _ => "the empty word".into(),
    }
}

/// The rows of a log, each with its first prefix.
struct Log {
    rows: Vec<Row>,
    afters: Vec<String>,
}

impl Log {
    fn new(words: &[Vec<u8>], rows: Vec<Row>) -> Self {
        let afters = rows.iter().map(|row| after(words, &row.counts)).collect();
        Self { rows, afters }
    }

    fn step(&self, row: usize, event: usize) -> String {
        let after = &self.afters[row];
        format!("event {event} after {after} (row {row})")
    }

    fn full_step(&self, row: usize, event: usize) -> String {
        let counts = &self.rows[row].counts;
        let after = &self.afters[row];
        format!(
            "event {event} after {after} (row {row}, counts {})",
            spaced(counts)
        )
    }

    fn wrong_continuations(&self) -> Vec<(usize, usize)> {
        let mut wrong = Vec::new();
        for (number, row) in self.rows.iter().enumerate() {
            let events = (0..row.allowed.len()).filter(|&event| !row.allowed[event]);
            wrong.extend(events.map(|event| (number, event)));
        }
        wrong
    }
}

/// What is said of a bundle that is refused with 10, 20, 11 or 12.
pub fn net_words(bundle: &[u8], refusal: Refusal) -> String {
    let mut fields = Fields::new(bundle);
    let (n, is_new) = fields.event_count().expect("n");
    let taken = fields.log(n, is_new, 256).expect("words");
    let log = Log::new(&taken.words, log_rows(n, &taken.words));
    let places = fields.places(n).expect("places");
    match refusal.number {
        10 => return misfit(&log, &places[refusal.spot], refusal.spot),
        20 => return disobeyed(&taken, n, &places[refusal.spot], refusal.spot),
        _ => (),
    }
    let spot = refusal.spot;
    for (number, (row, event)) in log.wrong_continuations().into_iter().enumerate() {
        let step = log.step(row, event);
        if fields.within(1, 0, 1).expect("a kind") == 0 {
            let place = fields.one_of(1, places.len()).expect("a place");
            let surplus = places[place].surplus(&log.rows[row].counts, event);
            if number == spot {
                return format!(
                    "certificate {spot}: {step}, named place {place}, surplus {surplus}: the place permits it"
                );
            }
        } else {
            let weights = Weights::read(&mut fields, n, log.rows.len(), &taken);
            if number == spot {
                let why = weights.failure(&log, &taken, row, event);
                return format!("certificate {spot}: {step}: {why}");
            }
        }
    }
    panic!("no certificate {spot}");
}

/// The first allowed step that a place refuses.
fn misfit(log: &Log, place: &Place, number: usize) -> String {
    for (
        row,
        Row {
            counts, allowed, ..
        },
    ) in log.rows.iter().enumerate()
    {
        for event in (0..counts.len()).filter(|&event| allowed[event]) {
            let surplus = place.surplus(counts, event);
            if surplus < 0 {
                let step = log.step(row, event);
                return format!(
                    "place {number} refuses an allowed step: {step}, surplus {surplus}"
                );
            }
        }
    }
    panic!("place {number} fits");
}

/// The first completed word after which a place has more tokens, or fewer.
fn disobeyed(taken: &fields::Log, n: usize, place: &Place, number: usize) -> String {
    for (word, events) in taken.words.iter().enumerate() {
        let Some(counts) = taken.completed(n, word) else {
            continue;
        };
        let change = place.tokens(&counts) - place.m;
        let than = if change < 0 { "fewer" } else { "more" };
        if change != 0 {
            let tokens = match change.abs() {
                1 => "1 token".to_string(),
                several => format!("{several} tokens"),
            };
            let word = shown(word, events);
            return format!("place {number} has {tokens} {than} after {word}, which is completed");
        }
    }
    panic!("place {number} obeys");
}

/// A word with its number.
fn shown(word: usize, events: &[u8]) -> String {
    match events {
        [] => format!("word {word} (the empty word)"),
        _ => format!("word {word} ({})", spaced(events)),
    }
}

/// A certificate of kind 1: k, and for each term its row, its event and its weight; in the
/// new edition for each pair its word and its weight, and what each event has of them.
struct Weights {
    k: i64,
    terms: Vec<(usize, usize, i64)>,
    pairs: Vec<(usize, i64)>,
    of_words: Option<Vec<i64>>,
}

impl Weights {
    fn read(fields: &mut Fields, n: usize, rows: usize, taken: &fields::Log) -> Self {
        let k = fields.within(2, 1, 65_535).expect("k");
        let count = fields.within(1, 0, 64).expect("a term count");
        let mut term = || {
            let row = fields.one_of(2, rows).expect("a row");
            let event = fields.one_of(1, n).expect("an event");
            (row, event, fields.field(2).expect("a weight").0 as i64)
        };
        let terms = (0..count).map(|_| term()).collect();
        let mut pairs = Vec::new();
        if taken.marks.is_some() {
            for _ in 0..fields.within(1, 0, 64).expect("a pair count") {
                let word = fields.one_of(1, taken.words.len()).expect("a word");
                pairs.push((word, fields.signed().expect("a weight").into()));
            }
        }
        Self::new(
            k as i64,
            terms,
            pairs,
            taken.marks.is_some(),
            n,
            &taken.words,
        )
    }

    fn new(
        k: i64,
        terms: Vec<(usize, usize, i64)>,
        pairs: Vec<(usize, i64)>,
        is_new: bool,
        n: usize,
        words: &[Vec<u8>],
    ) -> Self {
        let of_event = |i: usize| -> i64 {
            let products = pairs.iter().map(|&(word, h)| {
                let count = words[word].iter().filter(|&&e| usize::from(e) == i).count();
                h * count as i64
            });
            products.sum()
        };
        let of_words = is_new.then(|| (0..n).map(of_event).collect());
        Self {
            k,
            terms,
            pairs,
            of_words,
        }
    }

    /// A sum of terms, with the pairs of an event added: in words, and what it is.
    fn with_words(&self, of_terms: i64, i: usize) -> (String, i64) {
        match self.of_words.as_ref().map(|of_words| of_words[i]) {
            None => (of_terms.to_string(), of_terms),
            Some(pairs) => {
                let sum = of_terms + pairs;
                let sign = if pairs < 0 { "-" } else { "+" };
                (format!("{of_terms} {sign} {} = {sum}", pairs.abs()), sum)
            }
        }
    }

    /// How the pairs are named in the sum of an event.
    fn and_words(&self, i: impl std::fmt::Display) -> String {
        match self.of_words {
            None => String::new(),
            Some(_) => format!(" + the sum of h * u({i})"),
        }
    }

    /// The first step that is not allowed or word that is partial, else the first
    /// inequality that fails.
    fn failure(&self, log: &Log, taken: &fields::Log, row: usize, event: usize) -> String {
        for (number, &(u, f, _)) in self.terms.iter().enumerate() {
            if !log.rows[u].allowed[f] {
                let step = log.step(u, f);
                return format!("term {number} has {step}, which is not allowed");
            }
        }
        let marks = taken.marks.as_deref().unwrap_or_default();
        for (number, &(word, _)) in self.pairs.iter().enumerate() {
            if !marks[word] {
                let word = shown(word, &taken.words[word]);
                return format!("pair {number} has {word}, which is partial");
            }
        }
        let k = self.k;
        let sum: i64 = self.terms.iter().map(|&(_, _, g)| g).sum();
        if sum > k {
            return format!("the sum of g is {sum}, but must be at most k = {k}");
        }
        let v = &log.rows[row].counts;
        for (i, &count) in v.iter().enumerate() {
            let ((shown, sum), bound) = (self.before(log, i), k * count as i64);
            let and = self.and_words(i);
            if sum > bound {
                return format!(
                    "the sum of g * u({i}){and} is {shown}, but must be at most k * v({i}) = {k} * {count} = {bound}"
                );
            }
        }
        for (i, &count) in v.iter().enumerate() {
            let count = count + usize::from(i == event);
            let ((shown, sum), bound) = (self.after(log, i), k * count as i64);
            let and = self.and_words(i);
            if sum < bound {
                return format!(
                    "the sum of g * (u({i}) + [f = {i}]){and} is {shown}, but must be at least k * (v({i}) + [e = {i}]) = {k} * {count} = {bound}"
                );
            }
        }
        panic!("it holds");
    }

    fn of_terms(&self, log: &Log, i: usize) -> i64 {
        let terms = self.terms.iter();
        let products = terms.map(|&(u, _, g)| g * log.rows[u].counts[i] as i64);
        products.sum()
    }

    fn before(&self, log: &Log, i: usize) -> (String, i64) {
        self.with_words(self.of_terms(log, i), i)
    }

    fn after(&self, log: &Log, i: usize) -> (String, i64) {
        let own = self.terms.iter().filter(|&&(_, f, _)| f == i);
        let own: i64 = own.map(|&(_, _, g)| g).sum();
        self.with_words(self.of_terms(log, i) + own, i)
    }
}

/// The names of the fields of a bundle, with their offsets.
fn field_names(layout: &Layout, n: usize) -> Vec<(usize, Field, String)> {
    let (mut words, mut events, mut places, mut numbers) = (0, 0, 0, 0);
    let (mut certificates, mut terms, mut pairs) = (0, 0, 0);
    let mut named = Vec::new();
    for (field, range) in &layout.fields {
        match field {
            Field::Length => (words, events) = (words + 1, 0),
            Field::Initial => (places, numbers) = (places + 1, 0),
            Field::Kind => (certificates, terms, pairs) = (certificates + 1, 0, 0),
            Field::TermRow => terms += 1,
            Field::PairWord => pairs += 1,
            Field::Event => events += 1,
            Field::In | Field::Out => numbers += 1,
            _ => {}
        }
        let term = || format!("term {} of certificate {}", terms - 1, certificates - 1);
        let pair = || format!("pair {} of certificate {}", pairs - 1, certificates - 1);
        let name = match field {
            Field::EventCount => "the first byte".into(),
            Field::WordCount => "the word count".into(),
            Field::Length => format!("the length of word {}", words - 1),
            Field::Mark => format!("the mark of word {}", words - 1),
            Field::Event => {
                format!("the event at position {} of word {}", events - 1, words - 1)
            }
            Field::PlaceCount => "the place count".into(),
            Field::Initial => format!("m of place {}", places - 1),
            Field::In => format!("in({}) of place {}", numbers - 1, places - 1),
            Field::Out => format!("out({}) of place {}", numbers - 1 - n, places - 1),
            Field::Kind => format!("the kind of certificate {}", certificates - 1),
            Field::Listed => format!("the place of certificate {}", certificates - 1),
            Field::K => format!("k of certificate {}", certificates - 1),
            Field::TermCount => format!("the term count of certificate {}", certificates - 1),
            Field::TermRow => format!("the row of {}", term()),
            Field::TermEvent => format!("the event of {}", term()),
            Field::Weight => format!("the weight of {}", term()),
            Field::PairCount => format!("the pair count of certificate {}", certificates - 1),
            Field::PairWord => format!("the word of {}", pair()),
            Field::PairWeight => format!("the weight of {}", pair()),
        };
        named.push((range.start, *field, name));
    }
    named
}

/// What is said of a bundle that is cut, or has a value that is not of its range, in
/// the field at this offset.
pub fn field_words(certified: &Certified, bytes: &[u8], refusal: Refusal) -> String {
    let layout = certified.bundle.layout();
    let names = field_names(&layout, certified.bundle.n);
    let spot = refusal.spot;
    let (_, field, name) = names
        .into_iter()
        .find(|&(offset, ..)| offset == spot)
        .expect("a field is there");
    if refusal.number == 6 {
        let length = bytes.len();
        let ends = if spot == length { "before" } else { "inside" };
        return format!("the bundle ends {ends} {name}, at offset {spot} of {length}");
    }
    let mut value = usize::from(bytes[spot]);
    if matches!(field, Field::K | Field::TermRow) {
        value += 256 * usize::from(bytes[spot + 1]);
    }
    let right = right_values(certified, field);
    format!("{name}, at offset {spot}, is {value}, but {right}")
}

fn right_values(certified: &Certified, field: Field) -> String {
    let below = |count: usize| match count {
        0 => "there are no places".into(),
        1 => "must be 0".into(),
        _ => format!("must be 0 to {}", count - 1),
    };
    match field {
        Field::EventCount => "must be 1 to 12, or 129 to 140 in the new edition".into(),
        Field::PairWord if certified.bundle.words.is_empty() => "there are no words".into(),
        Field::PairWord => below(certified.bundle.words.len()),
        Field::Event | Field::TermEvent => below(certified.bundle.n),
        Field::PlaceCount | Field::TermCount | Field::PairCount => below(65),
        Field::Kind | Field::Mark => below(2),
        Field::Listed => below(certified.bundle.places.len()),
        Field::K => "must be 1 to 65535".into(),
        Field::TermRow => below(certified.rows.len()),
        _ => panic!("{field:?} has no wrong value"),
    }
}

/// The lines about the blocks of a file that break a rule.
pub fn block_lines(file: &[u8]) -> Vec<String> {
    let blocks = file.len() / BLOCK;
    let mut lines = Vec::new();
    for (index, block) in file.chunks(BLOCK).enumerate() {
        let mut rules = Vec::new();
        let number = files::Field::Number.read(block);
        if number != index {
            rules.push(format!("its number is {number} in place of {index}"));
        }
        rules.extend(used_or_padding(block, index + 1 == blocks));
        let (plain, weighted) = files::sums(block);
        for (name, field, right) in [
            ("S", files::Field::PlainSum, plain),
            ("W", files::Field::WeightedSum, weighted),
        ] {
            let stored = field.read(block);
            if stored != right {
                rules.push(format!("{name} is {stored} in place of {right}"));
            }
        }
        if !rules.is_empty() {
            lines.push(format!("  block {index}: {}", rules.join("; ")));
        }
    }
    lines
}

/// The line about the order of the blocks of a file that is refused for a number:
/// where all numbers are below the block count, the numbers; and the only number that
/// a block before another one lacks, unless a sum is wrong.
pub fn order_line(file: &[u8]) -> Option<String> {
    let blocks: Vec<&[u8]> = file.chunks(BLOCK).collect();
    let mut numbers = Vec::new();
    let mut damaged = false;
    for block in &blocks {
        numbers.push(files::Field::Number.read(block));
        let plain = files::Field::PlainSum.read(block);
        let weighted = files::Field::WeightedSum.read(block);
        damaged |= (plain, weighted) != files::sums(block);
    }
    let mut sorted = numbers.clone();
    sorted.sort_unstable();
    // Between a number and the next one, and before the first.
    let mut lacking = sorted[0];
    let mut lacks = lacking.saturating_sub(1);
    for pair in sorted.windows(2) {
        if pair[1] > pair[0] + 1 {
            lacking += pair[1] - pair[0] - 1;
            lacks = pair[1] - 1;
        }
    }
    let order = format!("the blocks stand in the order {}", spaced(&numbers));
    let missing = format!("block {lacks} is missing");
    let in_order = numbers.iter().all(|&number| number < blocks.len());
    match (in_order, lacking == 1 && !damaged) {
        (true, true) => Some(format!("{order}; {missing}")),
        (true, false) => Some(order),
        (false, true) => Some(missing),
        (false, false) => None,
    }
}

fn used_or_padding(block: &[u8], is_last: bool) -> Option<String> {
    let used = files::Field::Used.read(block);
    if is_last && !(1..=CONTENTS).contains(&used) {
        let right = "1 to 504 in the last block";
        return Some(format!("its used count is {used} in place of {right}"));
    }
    if !is_last && used != CONTENTS {
        return Some(format!("its used count is {used} in place of 504"));
    }
    let nonzero: Vec<usize> = (4 + used..508).filter(|&at| block[at] != 0).collect();
    let &at = nonzero.first()?;
    let more = match nonzero.len() - 1 {
        0 => String::new(),
        more => format!(", and {more} more are not 0"),
    };
    let value = block[at];
    Some(format!(
        "its padding has {value} in place of 0 at byte {at}{more}"
    ))
}

/// The page of an accepted bundle behind its head.
pub fn listing(certified: &Certified) -> String {
    let log = log_of(certified);
    let lines = [
        word_lines(certified),
        row_lines(&log),
        place_lines(certified),
        certificate_lines(certified, &log),
    ];
    lines.concat().join("\n") + "\n"
}

/// Where the fields of a kind are.
fn offsets(certified: &Certified, field: Field) -> Vec<usize> {
    let fields = certified.bundle.layout().all(field);
    fields.into_iter().map(|range| range.start).collect()
}

fn word_lines(certified: &Certified) -> Vec<String> {
    let Bundle { n, words, .. } = &certified.bundle;
    let events = words.iter().map(Vec::len).sum();
    let is_new = certified.bundle.is_new();
    let edition = if is_new { "; new edition" } else { "" };
    let n = match n {
        1 => format!("n = 1: event 0{edition}"),
        _ => format!("n = {n}: events 0 to {}{edition}", n - 1),
    };
    let counts = format!("{}, {}", count(words.len(), "word"), count(events, "event"));
    let mut lines = vec![n, counts];
    let at = offsets(certified, Field::Length);
    for (number, word) in words.iter().enumerate() {
        let empty = if word.is_empty() {
            "the empty word"
        } else {
            ""
        };
        let events = spaced(word);
        let mark = match certified.bundle.is_completed(number) {
            _ if !is_new => "",
            true => "; completed",
            false => "; partial",
        };
        lines.push(format!(
            "  word {number} at {}: {empty}{events}{mark}",
            at[number]
        ));
    }
    lines
}

fn row_lines(log: &Log) -> Vec<String> {
    let mut lines = vec![count(log.rows.len(), "row")];
    for (number, row) in log.rows.iter().enumerate() {
        let Row {
            counts,
            allowed,
            traffic,
        } = row;
        let events: Vec<usize> = (0..allowed.len()).filter(|&event| allowed[event]).collect();
        let none = if events.is_empty() { "none" } else { "" };
        let (counts, after) = (spaced(counts), &log.afters[number]);
        let allowed = spaced(&events);
        lines.push(format!(
            "  row {number}: counts {counts}, after {after}; traffic {traffic}; \
             allowed {none}{allowed}"
        ));
    }
    lines
}

fn place_lines(certified: &Certified) -> Vec<String> {
    let places = certified.bundle.places.len();
    let lines = (0..places).map(|number| format!("  {}", place_line(certified, number)));
    [count(places, "place")].into_iter().chain(lines).collect()
}

fn place_line(certified: &Certified, number: usize) -> String {
    let place = &certified.bundle.places[number];
    let at = offsets(certified, Field::Initial)[number];
    let (ins, outs) = (spaced(&place.ins), spaced(&place.outs));
    format!(
        "place {number} at {at}: m {}, in {ins}, out {outs}",
        place.m
    )
}

fn certificate_lines(certified: &Certified, log: &Log) -> Vec<String> {
    let certificates = &certified.bundle.certificates;
    let mut lines = vec![count(certificates.len(), "certificate")];
    let wrong = log.wrong_continuations();
    for (number, at) in offsets(certified, Field::Kind).into_iter().enumerate() {
        let (row, event) = wrong[number];
        let step = log.step(row, event);
        let says = match &certificates[number] {
            Certificate::Place(place) => {
                let listed = &certified.bundle.places[usize::from(*place)];
                let surplus = listed.surplus(&log.rows[row].counts, event);
                format!("kind 0, place {place}, surplus {surplus}")
            }
            Certificate::Weights { k, terms, pairs } => {
                kind_1(certified, *k, terms.len(), pairs.len())
            }
        };
        lines.push(format!("  certificate {number} at {at}: {step}: {says}"));
    }
    lines
}

fn log_of(certified: &Certified) -> Log {
    Log::new(&certified.bundle.words, certified.rows.clone())
}

/// The page of a certificate that holds, behind its head.
pub fn certificate(certified: &Certified, number: usize) -> String {
    let log = log_of(certified);
    let (row, event) = log.wrong_continuations()[number];
    let at = offsets(certified, Field::Kind)[number];
    let step = log.full_step(row, event);
    let v = &log.rows[row].counts;
    let mut lines = vec![format!("certificate {number} at {at}: {step}")];
    match &certified.bundle.certificates[number] {
        Certificate::Place(place) => {
            lines.extend(surplus_lines(certified, usize::from(*place), v, event));
        }
        Certificate::Weights { k, terms, pairs } => {
            lines.push(kind_1(certified, *k, terms.len(), pairs.len()));
            for (number, term) in terms.iter().enumerate() {
                let step = log.full_step(term.row.into(), term.event.into());
                let weight = term.weight;
                lines.push(format!("  term {number}: {step}: allowed, weight {weight}"));
            }
            let bundle = &certified.bundle;
            for (number, pair) in pairs.iter().enumerate() {
                let word = &bundle.words[usize::from(pair.word)];
                let counts = spaced(&counts_below(bundle.n, word));
                let word = shown(pair.word.into(), word);
                let word = word.strip_suffix(')').expect("a bracket");
                let weight = pair.weight;
                lines.push(format!(
                    "  pair {number}: {word}, counts {counts}): completed, weight {weight}"
                ));
            }
            let terms = terms.iter();
            let weights = Weights::new(
                (*k).into(),
                terms
                    .map(|term| (term.row.into(), term.event.into(), term.weight.into()))
                    .collect(),
                pairs
                    .iter()
                    .map(|pair| (pair.word.into(), pair.weight.into()))
                    .collect(),
                bundle.is_new(),
                bundle.n,
                &bundle.words,
            );
            lines.extend(weights.holding(&log, v, event));
        }
    }
    lines.join("\n") + "\n"
}

/// What a certificate of kind 1 has.
fn kind_1(certified: &Certified, k: u16, terms: usize, pairs: usize) -> String {
    let line = format!("kind 1, k {k}, {}", count(terms, "term"));
    match certified.bundle.is_new() {
        true => format!("{line}, {}", count(pairs, "pair")),
        false => line,
    }
}

/// The lines of a certificate of kind 0 that holds.
fn surplus_lines(certified: &Certified, number: usize, v: &[usize], event: usize) -> [String; 3] {
    let place = &certified.bundle.places[number];
    let (ins, outs) = (&place.ins, &place.outs);
    let mut sum = format!("  {}", place.m);
    for i in (0..v.len()).filter(|&i| v[i] > 0) {
        sum += &format!(" + {} * ({} - {})", v[i], ins[i], outs[i]);
    }
    let surplus = place.surplus(v, event);
    assert!(surplus < 0, "the place refuses it");
    [
        format!("kind 0, {}", place_line(certified, number)),
        format!("m + the sum of v(i) * (in(i) - out(i)) - out({event}):"),
        format!("{sum} - {} = {surplus}: the place refuses it", outs[event]),
    ]
}

impl Weights {
    /// The inequalities of weights that hold.
    fn holding(&self, log: &Log, v: &[usize], event: usize) -> Vec<String> {
        let k = self.k;
        let sum: i64 = self.terms.iter().map(|&(_, _, g)| g).sum();
        let and = self.and_words("i");
        let mut lines = vec![
            "the sum of g is at most k:".to_string(),
            format!("  {sum} <= {k}: holds"),
            format!("the sum of g * u(i){and} is at most k * v(i):"),
        ];
        for (i, &count) in v.iter().enumerate() {
            let ((shown, sum), bound) = (self.before(log, i), k * count as i64);
            assert!(sum <= bound);
            lines.push(format!(
                "  event {i}: {shown} <= {k} * {count} = {bound}: holds"
            ));
        }
        lines.push(format!(
            "the sum of g * (u(i) + [f = i]){and} is at least k * (v(i) + [e = i]):"
        ));
        for (i, &count) in v.iter().enumerate() {
            let count = count + usize::from(i == event);
            let ((shown, sum), bound) = (self.after(log, i), k * count as i64);
            assert!(sum >= bound);
            lines.push(format!(
                "  event {i}: {shown} >= {k} * {count} = {bound}: holds"
            ));
        }
        lines
    }
}
