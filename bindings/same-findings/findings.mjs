// findings.mjs MAP FOLDER NAME [GENERATED]: prints what a check finds in MAP, beside the generated text, the name of the map's
// file and the files of sources in FOLDER, as `./sourcemap check` does. FOLDER and NAME may be empty.
import { readFileSync } from 'node:fs';
import { check } from '../node/lib/index.mjs';

function positionText(position) {
  if (position === null) return '';
  const { line, index, column, lines, columns } = position;
  if (index !== undefined) return ` ${line}:${index}`;
  return column === undefined ? ` by ${lines}:${columns}` : ` at ${line}:${column}`;
}

const [map, folder, name, text] = process.argv.slice(2);
const { valid, invalid, suspicious, findings } = check(readFileSync(map), {
  generated: text && readFileSync(text),
  name: name || null,
  sources: folder || null,
});
for (const { code, sections, key, position, sentence } of findings) {
  const path = sections.map((section) => `sections[${section}].map.`).join('');
  console.log(`MAP:${path}${key}${positionText(position)}: ${code} ${sentence}`);
}
console.log(`${invalid} invalid, ${suspicious} suspicious, ${findings.length} shown`);
process.exitCode = valid ? 0 : 1;
