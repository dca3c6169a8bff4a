// The program as a WebAssembly module: what goes into its memory, and what comes out. runtime/module.c is the other side.

const encoder = new TextEncoder();
const bytesOf = (text) => (typeof text === "string" ? encoder.encode(text) : text);

/** Thrown where the module takes no more: out of memory, or out of stack. */
export class Exhausted extends Error {}

/**
 * The program of a module's bytes: a function of words (strings or bytes, without the program's name) and files (pairs of a
 * name and its bytes, as a Map has them) that answers the exit status, the bytes of standard output, and those of the name
 * of the last file that was opened and isn't there. Each call has its own instance, so it depends on its arguments alone.
 */
export async function load(moduleBytes) {
  const module = await WebAssembly.compile(moduleBytes);
  return (words, files) => perform(new WebAssembly.Instance(module).exports, words, files);
}

function perform(program, words, files) {
  const read = (at, size) => new Uint8Array(program.memory.buffer, at >>> 0, size >>> 0);
  const place = (text) => {
    const bytes = bytesOf(text);
    const at = program.take(bytes.length);
    if (at === 0) throw new Exhausted("there isn't enough memory");
    read(at, bytes.length).set(bytes);
    return [at, bytes.length];
  };
  for (const word of words) if (!program.add_word(...place(word))) throw new Exhausted("there are too many words");
  for (const [name, bytes] of files) if (!program.add_file(...place(name), ...place(bytes))) throw new Exhausted("there are too many files");
  let status;
  try {
    status = program.run();
  } catch (why) {
    throw new Exhausted(`the module stopped, most likely out of stack: ${why.message}`);
  }
  const taken = (at, size) => read(at, size).slice();
  return { status, output: taken(program.out(), program.out_size()), wanted: taken(program.wanted(), program.wanted_size()) };
}
