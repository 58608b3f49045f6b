import { baseName } from './frames.js';
import { byId } from './elements.js';

const MAGIC = [0x8f, 0x53, 0x4d, 0x43];

/** Whether a file begins as compiled maps do. */
export async function isCompiledMap(file) {
  const bytes = new Uint8Array(await file.slice(0, MAGIC.length).arrayBuffer());
  return bytes.length === MAGIC.length && MAGIC.every((byte, at) => bytes[at] === byte);
}

/** Whether a text is a source map of JSON, which has to be compiled first. */
export function isJsonMap(text) {
  const start = text.replace(/^\)\]\}[^\n]*\n/, '').slice(0, 2000);
  return /^\s*\{/.test(start) && /"(?:mappings|sections|sourcesContent|sources)"\s*:/.test(start);
}

/**
 * The files of a drop, and those in its folders, each with its path. In a page that is opened as a file, Chromium reads
 * folders by handles alone; other browsers have entries.
 */
export async function droppedFiles(transfer) {
  const items = Array.from(transfer.items).filter(({ kind }) => kind === 'file');
  const files = items.map((item) => item.getAsFile());
  // all of them are asked for now: a drop has no items after its event
  const handles = items.map((item) => item.getAsFileSystemHandle?.().catch(() => null) ?? null);
  const entries = items.map((item) => item.webkitGetAsEntry?.() ?? null);
  const found = [];
  for (const [at, file] of files.entries()) {
    const handle = await handles[at];
    if (handle?.kind === 'directory') await collectHandles(handle, handle.name, found);
    else if (handle === null && entries[at]?.isDirectory) await collectEntries(entries[at], found);
    else if (file !== null) found.push({ path: file.name, isInFolder: false, read: async () => file });
  }
  return found;
}

async function collectHandles(folder, path, found) {
  for await (const [name, handle] of folder.entries()) {
    if (handle.kind === 'directory') await collectHandles(handle, `${path}/${name}`, found);
    else found.push({ path: `${path}/${name}`, isInFolder: true, read: () => handle.getFile() });
  }
}

async function collectEntries(entry, found) {
  if (entry.isFile) {
    const read = () => new Promise((resolve, reject) => { entry.file(resolve, reject); });
    found.push({ path: entry.fullPath, isInFolder: true, read });
    return;
  }
  const reader = entry.createReader();
  for (;;) {
    const some = await new Promise((resolve, reject) => { reader.readEntries(resolve, reject); });
    if (some.length === 0) return;
    for (const each of some) await collectEntries(each, found);
  }
}

/** The sources by the last part of their paths. */
export class SourcePaths {
  constructor(sources) {
    this.byName = new Map();
    sources.forEach((path, source) => {
      const name = baseName(path);
      if (!this.byName.has(name)) this.byName.set(name, []);
      this.byName.get(name).push({ source, parts: partsOf(path) });
    });
  }

  /** The sources that a file may be: those whose paths have most last parts in common with that of the file. */
  find(path) {
    const parts = partsOf(path);
    let [most, found] = [0, []];
    for (const candidate of this.byName.get(baseName(path)) ?? []) {
      const common = commonEnd(parts, candidate.parts);
      if (common > most) [most, found] = [common, []];
      if (common === most) found.push(candidate.source);
    }
    return found;
  }
}

function partsOf(path) {
  return path.replace(/[?#].*$/, '').split(/[\\/]/).filter((part) => part !== '' && part !== '.' && part !== '..');
}

function commonEnd(parts, others) {
  let common = 0;
  while (common < Math.min(parts.length, others.length) && parts.at(-1 - common) === others.at(-1 - common)) common += 1;
  return common;
}

/** Calls `take(files, role)` for files that are dropped on the page, or chosen by one of the inputs. `files` is a promise. */
export function listenForFiles(take) {
  const shade = byId('drop');
  const hasFiles = (event) => Array.from(event.dataTransfer?.types ?? []).includes('Files');
  document.addEventListener('dragover', (event) => {
    if (!hasFiles(event)) return;
    event.preventDefault();
    shade.hidden = false;
  });
  document.addEventListener('dragleave', (event) => {
    if (event.relatedTarget === null) shade.hidden = true;
  });
  document.addEventListener('drop', (event) => {
    shade.hidden = true;
    if (!hasFiles(event)) return;
    event.preventDefault();
    take(droppedFiles(event.dataTransfer), 'any');
  });
  for (const input of document.querySelectorAll('input[type=file]')) {
    input.addEventListener('change', () => {
      const files = Array.from(input.files, (file) => ({
        path: file.webkitRelativePath || file.name, isInFolder: file.webkitRelativePath !== '', read: async () => file,
      }));
      input.value = '';
      take(Promise.resolve(files), input.dataset.role);
    });
  }
}
