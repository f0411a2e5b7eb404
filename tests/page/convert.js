// convert.js FILE..: what the page's scripts make of each file, into FILE.made, and a line on what was done.

import { readFileSync, writeFileSync } from "node:fs";
import { converted } from "../../page/src/convert.js";

for (const name of process.argv.slice(2)) {
  const { file, note } = await converted(new Uint8Array(readFileSync(name)));
  writeFileSync(`${name}.made`, file);
  process.stdout.write(`${note}\n`);
}
