// answers.mjs MAP POSITIONS: prints the original position for each line LINE:COLUMN of POSITIONS; what follows a tab
// does not count. Prints `none` if the closest token has no source or is on another line.
import { readFileSync } from 'node:fs';
import { FlattenMap, originalPositionFor } from '../node/lib/index.mjs';

function answer({ source, line, column, name }) {
  if (source === null) return 'none';
  return `${source}:${line - 1}:${column}${name === null ? '' : ` name=${name}`}`;
}

const [path, positions] = process.argv.slice(2);
const map = new FlattenMap(readFileSync(path, 'utf8'));
const rows = readFileSync(positions, 'utf8').trimEnd().split('\n');
for (const row of rows) {
  const [line, column] = row.split('\t')[0].split(':').map(Number);
  console.log(answer(originalPositionFor(map, { line: line + 1, column })));
}
