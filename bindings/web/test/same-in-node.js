/** node same-in-node.js OUT..: compares each map that `native` wrote, and prints a line for each. */
import { readFileSync } from 'node:fs';
import { CompiledMap } from '../out/sourcemap.js';
import { compare } from './same.js';

for (const out of process.argv.slice(2)) {
  const count = await compare(CompiledMap, (end) => new Uint8Array(readFileSync(`${out}.${end}`)));
  console.log(`${out}: ${count} positions alike`);
}
