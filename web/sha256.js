// SHA-256, since a page of a file may have no WebCrypto. The constants are the first bits of roots of primes, as FIPS 180-4 has them.

const SIZE = 64; // bytes of a block
const isPrime = number => Array.from({ length: Math.floor(Math.sqrt(number)) - 1 }, (_, at) => at + 2).every(it => number % it);
const PRIMES = Array.from({ length: 312 }, (_, at) => at).filter(it => it > 1 && isPrime(it)).slice(0, SIZE);

/** The first 32 bits after the point of a root of a number, found by whole numbers: the root of number * 2^(32 * power). */
function fraction(number, power) {
  const wanted = BigInt(number) << BigInt(32 * power);
  let low = 0n, high = 1n << 40n;
  while (high - low > 1n) {
    const middle = low + high >> 1n;
    if (middle ** BigInt(power) <= wanted) low = middle;
    else high = middle;
  }
  return Number(low & 0xffffffffn) | 0;
}

const START = PRIMES.slice(0, 8).map(it => fraction(it, 2)), ROUNDS = Int32Array.from(PRIMES, it => fraction(it, 3));
const turned = (word, bits) => word >>> bits | word << 32 - bits;

/** Takes in a block of 16 words. */
function mix(state, words) {
  for (let at = 16; at < SIZE; at++) {
    const near = words[at - 15], far = words[at - 2];
    words[at] = words[at - 16] + words[at - 7] + (turned(near, 7) ^ turned(near, 18) ^ near >>> 3) + (turned(far, 17) ^ turned(far, 19) ^ far >>> 10);
  }
  let [a, b, c, d, e, f, g, h] = state;
  for (let at = 0; at < SIZE; at++) {
    const first = h + (turned(e, 6) ^ turned(e, 11) ^ turned(e, 25)) + (e & f ^ ~e & g) + ROUNDS[at] + words[at] | 0;
    const second = (turned(a, 2) ^ turned(a, 13) ^ turned(a, 22)) + (a & b ^ a & c ^ b & c) | 0;
    h = g; g = f; f = e; e = d + first | 0;
    d = c; c = b; b = a; a = first + second | 0;
  }
  [a, b, c, d, e, f, g, h].forEach((word, at) => { state[at] = state[at] + word | 0; });
}

/** The SHA-256 of bytes, as hexadecimal digits. */
export function sha256(bytes) {
  const padded = new Uint8Array(Math.ceil((bytes.length + 9) / SIZE) * SIZE), view = new DataView(padded.buffer);
  padded.set(bytes);
  padded[bytes.length] = 0x80;
  view.setUint32(padded.length - 8, Math.floor(bytes.length / 2 ** 29));
  view.setUint32(padded.length - 4, bytes.length * 8 >>> 0);
  const state = [...START], words = new Int32Array(SIZE);
  for (let from = 0; from < padded.length; from += SIZE) {
    for (let at = 0; at < 16; at++) words[at] = view.getInt32(from + 4 * at);
    mix(state, words);
  }
  return state.map(word => (word >>> 0).toString(16).padStart(8, "0")).join("");
}
