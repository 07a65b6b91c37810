//! Pack files: for each pair the job and the trace, each after its length in 4 bytes.

pub struct Pair {
    pub job: Vec<u8>,
    pub trace: Vec<u8>,
}

impl Pair {
    pub fn append_to(&self, pack: &mut Vec<u8>) {
        for file in [&self.job, &self.trace] {
            pack.extend_from_slice(&(file.len() as u32).to_le_bytes());
            pack.extend_from_slice(file);
        }
    }
}

/// Job and trace, as parts of a pack.
pub type Parts<'a> = (&'a [u8], &'a [u8]);

/// The pairs of a pack, or a message if it is torn.
pub fn pairs(pack: &[u8]) -> Result<Vec<Parts<'_>>, String> {
    let mut rest = pack;
    let mut list = Vec::new();
    while !rest.is_empty() {
        let torn = || format!("the pack is torn in pair {}", list.len());
        let job = part(&mut rest).ok_or_else(torn)?;
        let trace = part(&mut rest).ok_or_else(torn)?;
        list.push((job, trace));
    }
    Ok(list)
}

fn part<'a>(rest: &mut &'a [u8]) -> Option<&'a [u8]> {
    let (len, behind) = rest.split_first_chunk()?;
    let (part, behind) = behind.split_at_checked(u32::from_le_bytes(*len) as usize)?;
    *rest = behind;
    Some(part)
}
