//! The rules once more, word for word and without care for speed: a pile of lists of rows, each step
//! on wide numbers. It must print what the checker prints.

use second_checker::check::check;
use second_checker::generator::pair;

type Num = i128;
type Row = (Vec<Num>, Num);
type Bad = (u32, usize, usize);

const RIGHT: Num = 20_000_000_000_000;
const MILLION: Num = 1_000_000;

fn within(x: Num, limit: Num) -> bool {
    -limit <= x && x <= limit
}

/// Bytes from `at` as a little-endian number; 19 where they end.
struct Tape<'a>(&'a [u8], usize);

impl Tape<'_> {
    fn number(&mut self, len: usize, signed: bool) -> Result<Num, Bad> {
        if self.1 + len > self.0.len() {
            return Err((19, 0, 0));
        }
        let part = &self.0[self.1..self.1 + len];
        self.1 += len;
        let plain = part.iter().rev().fold(0, |x, &b| x * 256 + Num::from(b));
        let top = 1 << (8 * len);
        Ok(if signed && plain * 2 >= top { plain - top } else { plain })
    }

    fn un(&mut self, len: usize) -> Result<Num, Bad> {
        self.number(len, false)
    }

    fn list(&mut self) -> Result<Vec<(usize, Num)>, Bad> {
        let map = self.un(2)?;
        let bits: Vec<usize> = (0..16).filter(|i| map >> i & 1 == 1).collect();
        bits.into_iter().map(|i| Ok((i, self.number(4, true)?))).collect()
    }

    fn body(&mut self) -> Result<(Vec<(Num, Num)>, Num), Bad> {
        let count = self.un(1)?;
        let premises = (0..count).map(|_| Ok((self.un(2)?, self.un(2)?))).collect::<Result<_, Bad>>()?;
        Ok((premises, self.un(4)?))
    }
}

fn spread(list: &[(usize, Num)], n: usize) -> Result<Vec<Num>, Bad> {
    match list.iter().find(|(i, x)| *i >= n || *x == 0) {
        Some((i, _)) => Err((21, *i, 0)),
        None => Ok((0..n).map(|i| list.iter().find(|e| e.0 == i).map_or(0, |e| e.1)).collect()),
    }
}

#[derive(Default)]
struct State {
    theory: u8,
    costs: Vec<Num>,
    rows: Vec<Row>,
    records: Vec<Vec<Num>>,
    pile: Vec<Vec<Row>>,
    taken: Option<Vec<Num>>,
}

fn dot(a: &[Num], b: &[Num]) -> Num {
    a.iter().zip(b).map(|(x, y)| x * y).sum()
}

fn meets(plan: &[Num], row: &Row) -> bool {
    dot(&row.0, plan) <= row.1
}

fn bad_row(row: &Row, n: usize, right: impl Fn(Num) -> bool) -> Result<(), Bad> {
    if let Some(i) = row.0.iter().position(|&c| !within(c, MILLION)) {
        return Err((3, i, 0));
    }
    if right(row.1) {
        Ok(())
    } else {
        Err((3, n, 0))
    }
}

fn floor_div(a: Num, d: Num) -> Num {
    let q = a / d;
    if a % d < 0 {
        q - 1
    } else {
        q
    }
}

fn check_body(body: &(Vec<(Num, Num)>, Num)) -> Result<(), Bad> {
    let (premises, divisor) = body;
    if premises.is_empty() || premises.len() > 32 {
        return Err((2, 0, 0));
    }
    if let Some(i) = premises.iter().position(|p| p.1 < 1 || p.1 > 10_000) {
        return Err((3, i, 0));
    }
    if *divisor < 1 || *divisor > MILLION {
        return Err((3, premises.len(), 0));
    }
    Ok(())
}

fn combine(table: &[Row], n: usize, body: &(Vec<(Num, Num)>, Num)) -> Result<Row, Bad> {
    let (premises, divisor) = body;
    if let Some(i) = premises.iter().position(|p| p.0 as usize >= table.len()) {
        return Err((5, i, 0));
    }
    let sum = |f: &dyn Fn(&Row) -> Num| -> Num { premises.iter().map(|p| p.1 * f(&table[p.0 as usize])).sum() };
    let sums: Vec<Num> = (0..n).map(|i| sum(&|row| row.0[i])).collect();
    if let Some(i) = sums.iter().position(|s| s % divisor != 0) {
        return Err((6, i, 0));
    }
    let coefs: Vec<Num> = sums.iter().map(|s| s / divisor).collect();
    if let Some(i) = coefs.iter().position(|&c| !within(c, MILLION)) {
        return Err((7, i, 0));
    }
    let right = floor_div(sum(&|row| row.1), *divisor);
    if within(right, RIGHT) {
        Ok((coefs, right))
    } else {
        Err((7, 16, 0))
    }
}

impl State {
    fn n(&self) -> usize {
        self.costs.len()
    }

    fn read(&self, plan: &[Num], place: Num) -> Num {
        plan.get(place as usize).copied().unwrap_or(0)
    }

    fn admits(&self, plan: &[Num]) -> bool {
        let at = |place| self.read(plan, place);
        for i in 0..self.records.len() {
            for j in 0..self.records.len() {
                let (a, b) = (&self.records[i], &self.records[j]);
                if self.theory == b'S' && a[0] == b[0] {
                    let same = at(a[1]) == at(b[1]) && at(a[2]) == at(b[2]);
                    if same && at(a[3]) != at(b[3]) {
                        return false;
                    }
                }
                if self.theory == b'O' && i != j && at(a[0]) + a[1] > at(b[0]) && at(b[0]) + b[1] > at(a[0]) {
                    return false;
                }
            }
        }
        true
    }

    /// Differences of the premises and of the conclusion, which is last.
    fn rule(&self, clue: &[Num]) -> Result<Vec<(Num, Num, Num)>, Bad> {
        let none = (8, 0, 0);
        if self.theory == b'N' {
            return Err(none);
        }
        let i = self.records.get(clue[0] as usize).ok_or(none)?;
        let j = self.records.get(clue[1] as usize).ok_or(none)?;
        if self.theory == b'O' {
            if clue[0] == clue[1] {
                return Err(none);
            }
            return Ok(vec![(j[0], i[0], i[1] - 1), (j[0], i[0], -j[1])]);
        }
        if i[0] != j[0] {
            return Err(none);
        }
        let pairs = [(i[1], j[1]), (j[1], i[1]), (i[2], j[2]), (j[2], i[2]), (i[3], j[3])];
        Ok(pairs.iter().map(|&(a, b)| (a, b, 0)).collect())
    }

    fn difference(&self, (a, b, k): (Num, Num, Num)) -> Row {
        let at = |i: usize| Num::from(a == i as Num) - Num::from(b == i as Num);
        ((0..self.n()).map(at).collect(), k)
    }

    fn job_record(&mut self, tape: &mut Tape, phase: &mut usize) -> Result<bool, Bad> {
        let letter = tape.un(1)? as u8;
        let out = Err((20, 0, 0));
        match letter {
            b'N' | b'S' | b'O' if *phase == 0 => {
                self.theory = letter;
                *phase = 1;
            }
            _ if *phase == 0 => return out,
            b'V' if *phase == 1 => self.variable(tape.number(4, true)?)?,
            b'R' if *phase <= 2 => {
                *phase = 2;
                self.job_row(tape)?;
            }
            b'F' if self.theory == b'S' => {
                *phase = 3;
                let fields: Vec<Num> = (0..4).map(|_| tape.un(1)).collect::<Result<_, _>>()?;
                if let Some(i) = (1..4).find(|&i| fields[i] > [255, 15, 16, 15][i]) {
                    return Err((3, i, 0));
                }
                self.add(fields)?;
            }
            b'W' if self.theory == b'O' => {
                *phase = 3;
                let (start, length) = (tape.un(1)?, tape.un(4)?);
                self.batch(start, length)?;
            }
            b'E' => return Ok(true),
            _ => return out,
        }
        Ok(false)
    }

    fn variable(&mut self, cost: Num) -> Result<(), Bad> {
        if !within(cost, MILLION) {
            return Err((3, 0, 0));
        }
        if self.n() == 16 {
            return Err((4, 0, 0));
        }
        self.costs.push(cost);
        Ok(())
    }

    fn batch(&mut self, start: Num, length: Num) -> Result<(), Bad> {
        if start > 15 {
            return Err((3, 0, 0));
        }
        if !(1..=MILLION).contains(&length) {
            return Err((3, 1, 0));
        }
        self.add(vec![start, length])
    }

    fn add(&mut self, fields: Vec<Num>) -> Result<(), Bad> {
        if self.records.len() == 16 {
            return Err((4, 0, 0));
        }
        self.records.push(fields);
        Ok(())
    }

    fn job_row(&mut self, tape: &mut Tape) -> Result<(), Bad> {
        let letter = tape.un(1)? as u8;
        let list = tape.list()?;
        let right = tape.number(8, true)?;
        let row = (spread(&list, self.n())?, right);
        bad_row(&row, self.n(), |r| within(r, RIGHT))?;
        let turned = (row.0.iter().map(|c| -c).collect(), -row.1);
        let new = match letter {
            b'L' => vec![row],
            b'G' => vec![turned],
            b'E' => vec![row, turned],
            _ => return Err((9, 0, 0)),
        };
        if self.rows.len() + new.len() > 64 {
            return Err((4, 0, 0));
        }
        self.rows.extend(new);
        Ok(())
    }

    fn table(&mut self) -> Result<&mut Vec<Row>, Bad> {
        self.pile.last_mut().ok_or((1, 0, 0))
    }

    fn join(&mut self, row: Row) -> Result<(), Bad> {
        self.table()?.push(row);
        Ok(())
    }

    fn room(&mut self, more: usize) -> Result<(), Bad> {
        if self.table()?.len() + more > 512 {
            return Err((4, 0, 0));
        }
        Ok(())
    }

    fn trace_record(&mut self, tape: &mut Tape) -> Result<bool, Bad> {
        let n = self.n();
        match tape.un(1)? as u8 {
            b'B' => {
                let (list, right) = (tape.list()?, tape.number(8, true)?);
                self.branch((spread(&list, n)?, right))?;
            }
            b'C' => self.cut(&tape.body()?)?,
            b'L' => {
                let count = tape.un(1)?;
                let lines = (0..count).map(|_| tape.body()).collect::<Result<Vec<_>, _>>()?;
                self.chain(&lines)?;
            }
            b'I' => {
                let clue: Vec<Num> =
                    (0..if self.theory == b'N' { 0 } else { 2 }).map(|_| tape.un(1)).collect::<Result<_, _>>()?;
                let count = tape.un(1)?;
                let places: Vec<Num> = (0..count).map(|_| tape.un(2)).collect::<Result<_, _>>()?;
                self.infer(&clue, &places)?;
            }
            b'K' => self.cutoff()?,
            b'T' => {
                let list = tape.list()?;
                self.take(spread(&list, n)?)?;
            }
            b'D' => {
                let place = tape.un(2)?;
                self.drop_at(place as usize)?;
            }
            b'P' => {
                let places: Vec<Num> = (0..2 * n).map(|_| tape.un(2)).collect::<Result<_, _>>()?;
                self.pin(&places)?;
            }
            b'E' => return Ok(true),
            _ => return Err((20, 0, 0)),
        }
        Ok(false)
    }

    fn cut(&mut self, body: &(Vec<(Num, Num)>, Num)) -> Result<(), Bad> {
        self.table()?;
        check_body(body)?;
        self.room(1)?;
        let n = self.n();
        let row = combine(self.table()?, n, body)?;
        self.join(row)
    }

    fn cutoff(&mut self) -> Result<(), Bad> {
        self.table()?;
        let taken = self.taken.clone().ok_or((12, 0, 0))?;
        self.room(1)?;
        self.join((self.costs.clone(), dot(&self.costs, &taken) - 1))
    }

    fn drop_at(&mut self, place: usize) -> Result<(), Bad> {
        let row = self.table()?.get(place).cloned().ok_or((5, 0, 0))?;
        if row.0.iter().any(|&c| c != 0) || row.1 >= 0 {
            return Err((16, 0, 0));
        }
        self.pile.pop();
        Ok(())
    }

    fn branch(&mut self, row: Row) -> Result<(), Bad> {
        self.table()?;
        bad_row(&row, self.n(), |r| within(r, RIGHT) && within(-r - 1, RIGHT))?;
        self.room(1)?;
        let opposite = (row.0.iter().map(|c| -c).collect(), -row.1 - 1);
        let mut upper = self.table()?.clone();
        upper.push(row);
        self.join(opposite)?;
        self.pile.push(upper);
        Ok(())
    }

    fn chain(&mut self, lines: &[(Vec<(Num, Num)>, Num)]) -> Result<(), Bad> {
        let mut table = self.table()?.clone();
        if lines.is_empty() || lines.len() > 8 {
            return Err((2, 0, 0));
        }
        self.room(lines.len())?;
        for (k, body) in lines.iter().enumerate() {
            let row = check_body(body).and_then(|()| combine(&table, self.n(), body));
            table.push(row.map_err(|(number, spot, _)| (number, spot, k + 1))?);
        }
        self.join(table.pop().unwrap())
    }

    fn infer(&mut self, clue: &[Num], places: &[Num]) -> Result<(), Bad> {
        let table = self.table()?.clone();
        let all = self.rule(clue)?;
        let n = self.n() as Num;
        if let Some(i) = all.iter().position(|d| (n..=15).contains(&d.0) || (n..=15).contains(&d.1)) {
            return Err((10, i, 0));
        }
        let (conclusion, premises) = all.split_last().unwrap();
        if places.len() != premises.len() {
            return Err((2, 0, 0));
        }
        self.room(1)?;
        let rows: Vec<Row> = premises.iter().map(|&d| self.difference(d)).collect();
        let bare = |row: &Row| row.0.iter().all(|&c| c == 0);
        if let Some(i) = (0..rows.len()).find(|&i| !bare(&rows[i]) && places[i] as usize >= table.len()) {
            return Err((5, i, 0));
        }
        let shown = |i: usize| {
            let row = &rows[i];
            if bare(row) {
                return row.1 >= 0;
            }
            let there = &table[places[i] as usize];
            there.0 == row.0 && there.1 <= row.1
        };
        if let Some(i) = (0..rows.len()).find(|&i| !shown(i)) {
            return Err((11, i, 0));
        }
        let row = self.difference(*conclusion);
        self.join(row)
    }

    fn no_cheaper(&self, plan: &[Num]) -> bool {
        self.taken.as_ref().is_some_and(|taken| dot(&self.costs, plan) >= dot(&self.costs, taken))
    }

    fn take(&mut self, plan: Vec<Num>) -> Result<(), Bad> {
        self.table()?;
        if let Some(i) = plan.iter().position(|&v| !within(v, MILLION)) {
            return Err((3, i, 0));
        }
        if let Some(i) = self.rows.iter().position(|row| !meets(&plan, row)) {
            return Err((13, i, 0));
        }
        if !self.admits(&plan) {
            return Err((14, 0, 0));
        }
        if self.no_cheaper(&plan) {
            return Err((15, 0, 0));
        }
        self.taken = Some(plan);
        Ok(())
    }

    fn pin(&mut self, places: &[Num]) -> Result<(), Bad> {
        let n = self.n();
        let table = self.table()?.clone();
        if let Some(i) = places.iter().position(|&p| p as usize >= table.len()) {
            return Err((5, i, 0));
        }
        let alone = |row: &Row, i: usize, sign: Num| (0..n).all(|j| row.0[j] == if i == j { sign } else { 0 });
        let mut point = vec![];
        for i in 0..n {
            let (up, down) = (&table[places[2 * i] as usize], &table[places[2 * i + 1] as usize]);
            let fixed = alone(up, i, 1) && alone(down, i, -1) && down.1 == -up.1 && within(up.1, MILLION);
            if !fixed {
                return Err((17, i, 0));
            }
            point.push(up.1);
        }
        let shuts = table.iter().any(|row| !meets(&point, row)) || !self.admits(&point) || self.no_cheaper(&point);
        if !shuts {
            return Err((18, 0, 0));
        }
        self.pile.pop();
        Ok(())
    }

    fn verdict(&self) -> String {
        let plan = self.taken.as_ref().map(|taken| {
            let words: Vec<String> = taken.iter().map(|v| format!(" {v}")).collect();
            format!("plan{}", words.concat())
        });
        match (self.pile.is_empty(), plan) {
            (true, Some(plan)) => format!("least {} | {plan}", dot(&self.costs, self.taken.as_ref().unwrap())),
            (true, None) => "none".into(),
            (false, Some(plan)) => format!("unfinished | {plan}"),
            (false, None) => "unfinished".into(),
        }
    }
}

fn file(bytes: &[u8], number: u32, mut record: impl FnMut(&mut Tape) -> Result<bool, Bad>) -> Result<(), String> {
    let say = |bad: Bad, record: usize, byte: usize| {
        Err(format!("refused {} {number} {record} {byte} {} {}", bad.0, bad.2, bad.1))
    };
    if bytes.len() > 65_536 {
        return say((24, 0, 0), 0, 0);
    }
    let mut tape = Tape(bytes, 0);
    let mut count = 0;
    loop {
        let byte = tape.1;
        match record(&mut tape) {
            Err(bad) => return say(bad, count, byte),
            Ok(true) if tape.1 < bytes.len() => return say((22, 0, 0), count + 1, tape.1),
            Ok(true) => return Ok(()),
            Ok(false) => count += 1,
        }
    }
}

fn naive(job: &[u8], trace: &[u8]) -> String {
    let mut state = State::default();
    let mut phase = 0;
    if let Err(line) = file(job, 1, |tape| state.job_record(tape, &mut phase)) {
        return line;
    }
    state.pile.push(state.rows.clone());
    match file(trace, 2, |tape| state.trace_record(tape)) {
        Err(line) => line,
        Ok(()) => state.verdict(),
    }
}

#[test]
fn the_checker_says_what_the_rules_say() {
    for seed in 20..22 {
        for index in 0..3_000 {
            let pair = pair(seed, index);
            let said = check(&pair.job, &pair.trace).to_string();
            assert_eq!(said, naive(&pair.job, &pair.trace), "seed {seed}, index {index}");
        }
    }
}
