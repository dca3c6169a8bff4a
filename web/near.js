// The word of a list that is most like another, measured as Python's difflib does: twice the characters of their matching blocks,
// by the characters of both.

const LEAST = 0.6;

/** The longest block that both have in these ranges: where it begins in each, and its length. */
function longestMatch(left, right, [leftFrom, leftTo, rightFrom, rightTo]) {
  let best = [leftFrom, rightFrom, 0], lengths = new Map();
  for (let i = leftFrom; i < leftTo; i++) {
    const next = new Map();
    for (let j = rightFrom; j < rightTo; j++) {
      if (left[i] !== right[j]) continue;
      const length = (lengths.get(j - 1) ?? 0) + 1;
      next.set(j, length);
      if (length > best[2]) best = [i - length + 1, j - length + 1, length];
    }
    lengths = next;
  }
  return best;
}

/** How many characters the matching blocks of two words have. */
function matching(left, right) {
  let total = 0;
  const ranges = [[0, left.length, 0, right.length]];
  while (ranges.length) {
    const range = ranges.pop(), [i, j, length] = longestMatch(left, right, range);
    if (!length) continue;
    total += length;
    ranges.push([range[0], i, range[2], j], [i + length, range[1], j + length, range[3]]);
  }
  return total;
}

/** The nearest word, or nothing where none is near. */
export function nearest(word, words) {
  let found = "", best = 0;
  for (const it of words) {
    const ratio = it.length + word.length ? 2 * matching(it, word) / (it.length + word.length) : 1;
    if (ratio >= LEAST && (ratio > best || ratio === best && it > found)) [found, best] = [it, ratio];
  }
  return found;
}
