//! Cutting a history that shows a difference to a short one that still shows it.

/// Of a list of numbers no pieces are tried that are smaller than this part of it: it may need its length.
const PIECES: usize = 128;

/// A history made of lines of this one, some of them with fewer numbers, that still shows it, and would not without any one
/// of its lines. `shows` gives how many lines of a history are needed up to where it shows; of this one, all.
pub fn shorten(
    lines: &[Vec<u8>],
    mut shows: impl FnMut(&[&[u8]]) -> Option<usize>,
) -> Vec<Vec<u8>> {
    let mut history = lines.to_vec();
    let mut before = usize::MAX;
    // with fewer numbers fewer lines may do, and the other way round
    while bytes(&history) < before {
        before = bytes(&history);
        history = cut_lines(&history, &mut shows);
        for at in 0..history.len() {
            history[at] = cut_numbers(&history, at, &mut shows);
        }
    }
    history
}

/// Bytes of a history, with a line feed for each line.
fn bytes(lines: &[Vec<u8>]) -> usize {
    lines.iter().map(|line| line.len() + 1).sum()
}

/// The history with as few of its lines as will do.
fn cut_lines(lines: &[Vec<u8>], shows: &mut impl FnMut(&[&[u8]]) -> Option<usize>) -> Vec<Vec<u8>> {
    let mut left: Vec<&[u8]> = lines.iter().map(Vec::as_slice).collect();
    cut(&mut left, 1, shows);
    left.iter().map(|line| line.to_vec()).collect()
}

/// The line at this place, with as few of its numbers as will do.
fn cut_numbers(
    lines: &[Vec<u8>],
    at: usize,
    shows: &mut impl FnMut(&[&[u8]]) -> Option<usize>,
) -> Vec<u8> {
    let mut words: Vec<&[u8]> = lines[at].split(|&byte| byte == b' ').collect();
    let first = words.remove(0);
    let finest = words.len().div_ceil(PIECES).max(1);
    cut(&mut words, finest, |words| {
        let line = line_of(first, words);
        let mut history: Vec<&[u8]> = lines.iter().map(Vec::as_slice).collect();
        history[at] = &line;
        let needed = shows(&history)?;
        (needed == history.len()).then_some(words.len())
    });
    line_of(first, &words)
}

fn line_of(first: &[u8], words: &[&[u8]]) -> Vec<u8> {
    let mut line = first.to_vec();
    for word in words {
        line.push(b' ');
        line.extend_from_slice(word);
    }
    line
}

/// Removes pieces of a list, halves first, then ever smaller ones. `needed` gives how many elements of what is left are
/// needed, from the front; none: the piece cannot be spared.
fn cut<T: Copy>(list: &mut Vec<T>, finest: usize, mut needed: impl FnMut(&[T]) -> Option<usize>) {
    let mut piece = list.len().div_ceil(2);
    while piece >= finest && !list.is_empty() {
        let mut from = 0;
        while from < list.len() {
            let to = (from + piece).min(list.len());
            let mut left = [&list[..from], &list[to..]].concat();
            match needed(&left) {
                Some(length) => {
                    left.truncate(length);
                    *list = left;
                }
                None => from = to,
            }
        }
        if piece == 1 {
            break;
        }
        piece = piece.div_ceil(2);
    }
}

#[cfg(test)]
mod tests {
    use super::shorten;

    fn lines(texts: &[&str]) -> Vec<Vec<u8>> {
        texts.iter().map(|text| text.as_bytes().to_vec()).collect()
    }

    #[test]
    fn lines_and_numbers_are_cut() {
        let mut history = vec!["word 1 2"; 5_000];
        history.insert(1_234, "list 1 2 3 4 5 6 7 8 9");
        history.insert(4_321, "call");
        let mut tried = 0;
        let left = shorten(&lines(&history), |lines| {
            tried += 1;
            let list = lines.iter().position(|line| {
                line.starts_with(b"list") && line.contains(&b'7') && line.contains(&b'2')
            });
            let call = lines.iter().position(|line| line == b"call")?;
            (list? < call).then_some(call + 1)
        });
        assert_eq!(left, lines(&["list 2 7", "call"]));
        assert!(tried < 200, "{tried} tries");
    }

    #[test]
    fn a_list_may_need_its_length() {
        let list = format!("script{}", " 5".repeat(90_000));
        let mut tried = 0;
        let left = shorten(&lines(&[&list]), |lines| {
            tried += 1;
            (lines.len() == 1 && lines[0].len() > 150_000).then_some(1)
        });
        assert!(left[0].len() < 152_000, "{}", left[0].len());
        assert!(tried < 1_000, "{tried} tries");
    }
}
