// Takes all memory that the module gives, in ever smaller pieces, and then runs the program: what it answers, and how many bytes it wrote.
import fs from "node:fs";

const [modulePath, imagePath] = process.argv.slice(2);
const program = new WebAssembly.Instance(new WebAssembly.Module(fs.readFileSync(modulePath))).exports;
const place = (bytes) => {
  const at = program.take(bytes.length) >>> 0;
  new Uint8Array(program.memory.buffer, at, bytes.length).set(bytes);
  return [at, bytes.length];
};
const text = (it) => place(new TextEncoder().encode(it));

for (const word of ["run", "two.img", "/dev/null", "100"]) program.add_word(...text(word));
program.add_file(...text("two.img"), ...place(fs.readFileSync(imagePath)));
program.add_file(...text("/dev/null"), ...place(new Uint8Array()));
for (let size = 3_000_000_000; size > 0; size = Math.floor(size / 10)) while (program.take(size) !== 0);
console.log(program.run(), program.out_size(), program.memory.buffer.byteLength < 2 ** 32);
