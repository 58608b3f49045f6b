import { CompiledMap } from '../sourcemap.js';
import { Job } from './slices.js';
import { countText, linesOf, positionText, visibleText } from './texts.js';
import { Lookups, Tokens, isLinked, placeIn, tokensBySource } from './tokens.js';
import { originalsOf } from './originals.js';
import { Pane } from './pane.js';
import { Legend } from './legend.js';
import { Search } from './search.js';
import { Trace } from './trace.js';
import { SourcePaths, isCompiledMap, isJsonMap, listenForFiles } from './files.js';
import { baseName } from './frames.js';
import { byId, element } from './elements.js';
import { hueOf } from './colours.js';

/** How long the mouse rests on a piece before its partner is scrolled to, in milliseconds. */
const HOVER_DELAY = 150;
const MOST_NAMES_KEPT = 50_000;
/** Among how many of the first tokens the first source is looked for. */
const FIRST_TOKENS = 256;
const KEYS = new Set(['ArrowLeft', 'ArrowRight', 'ArrowUp', 'ArrowDown', 'Home', 'End']);
/** Narrower pages show the list of the sources only when it is asked for. */
const NARROW = matchMedia('(max-width: 899px)');

const JSON_MAP = 'is a source map of JSON. Compile it first:\n./sourcemap compile < MAP > FILE';

/** The page: a compiled map, its generated text, and one of its sources. */
class Page {
  constructor() {
    this.selected = null;
    this.hovered = null;
    this.mouse = { x: -1, y: -1 };
    this.hoverTimer = 0;
    this.status = byId('status');
    this.generatedText = null;
    this.generatedName = null;
    this.waiting = [];
    this.taking = 0;
    this.isCutting = false;
    this.map = null;
    this.generated = new Pane('generated', this);
    this.source = new Pane('source', this);
    this.legend = new Legend((source, isFinal) => this.chooseSource(source, isFinal));
    this.forgetMap();
    this.search = new Search(this);
    this.trace = new Trace(this);
    this.listen();
    listenForFiles((files, role) => this.take(files, role));
  }

  listen() {
    byId('wrap').addEventListener('click', ({ currentTarget: button }) => {
      const isWrapping = button.getAttribute('aria-pressed') !== 'true';
      button.setAttribute('aria-pressed', String(isWrapping));
      for (const pane of [this.generated, this.source]) pane.setWrapping(isWrapping);
      if (this.selected !== null) this.select(this.selected);
    });
    byId('sources-toggle').addEventListener('click', () => this.showLegend(byId('legend').hidden));
    byId('legend').addEventListener('keydown', (event) => {
      if (event.key !== 'Escape' || !NARROW.matches) return;
      this.showLegend(false);
      byId('sources-toggle').focus();
    });
    NARROW.addEventListener('change', () => this.showLegend(!NARROW.matches));
    byId('alert-close').addEventListener('click', () => this.say(''));
    this.showLegend(!NARROW.matches);
  }

  showLegend(isShown) {
    byId('legend').hidden = !isShown;
    byId('sources-toggle').setAttribute('aria-expanded', String(isShown));
    if (isShown) this.legend.reveal();
    if (isShown && NARROW.matches) byId('sources').focus();
  }

  /** Shows a message until the next files are opened; none for an empty text. */
  say(message) {
    byId('alert').hidden = message === '';
    byId('alert-text').textContent = message;
  }

  // Files

  /** Opens files, of which there is a promise. `role` is what they are: `map`, `generated`, `source`, or `any`. */
  async take(files, role) {
    this.say('');
    this.taking += 1;
    this.settle();
    try {
      const texts = [];
      for (const each of await files) {
        const file = await each.read();
        if (await isCompiledMap(file)) await this.openMap(file);
        else texts.push({ ...each, file });
      }
      if (role === 'map' && texts.length > 0) await this.refuseMap(texts[0]);
      else await this.takeTexts(texts, role);
    } catch (error) {
      this.say(error.message);
    }
    this.taking -= 1;
    this.settle();
  }

  async refuseMap({ path, file }) {
    throw new Error(`${visibleText(path)} ${isJsonMap(await file.text()) ? JSON_MAP : 'is no compiled map.'}`);
  }

  async takeTexts(texts, role) {
    const unknown = [];
    for (const each of texts) {
      const known = this.roleOf(each, role);
      if (known === null) {
        unknown.push(each.path);
        continue;
      }
      const text = await each.file.text();
      if (role !== 'source' && !each.isInFolder && isJsonMap(text)) await this.refuseMap(each);
      if (known === 'generated') this.openGenerated(text, baseName(each.path));
      else if (known === 'waiting') this.waiting.push(each);
      else this.setContents(known, text);
    }
    const alone = unknown.length === 1 ? `${visibleText(unknown[0])} is` : `${unknown.length} files are`;
    if (unknown.length > 0 && !texts[0].isInFolder) this.say(`${alone} none of the map's sources, or may be several of them.`);
  }

  /** What a text is: `generated`, the id of a source, `waiting` for the map; null if it is nothing known. */
  roleOf({ path, isInFolder }, role) {
    if (role === 'generated') return 'generated';
    const isSource = role === 'source' || isInFolder;
    if (this.map === null) return isSource || this.generatedText !== null ? 'waiting' : 'generated';
    const file = this.fileName();
    if (!isSource && baseName(path) === file) return 'generated';
    const sources = this.paths.find(path);
    if (sources.length === 1 && (isSource || !this.hasContents(sources[0]))) return sources[0];
    const isKnown = file !== null && file === this.generatedName;
    return isSource || isKnown || sources.length > 1 ? null : 'generated';
  }

  /** The name of the generated file, as the map has it; null if it has none. */
  fileName() {
    const file = this.read(() => this.map.file);
    return file === null ? null : baseName(file);
  }

  // What is shown

  forgetMap() {
    this.readJob?.cancel();
    this.sourceJob?.cancel();
    this.map?.close();
    this.map = null;
    this.lookups = null;
    this.tokens = null;
    this.bySource = null;
    this.whenReadCalls = [];
    this.contents = new Map();
    this.hasContentsOf = new Map();
    this.names = new Map();
    this.sourceNames = [];
    this.currentSource = -1;
    this.originals = null;
    this.onSource = () => {};
    this.selected = null;
    this.hovered = null;
  }

  /** Opens a compiled map: its bytes, or a file. */
  async openMap(from) {
    const map = await CompiledMap.load(from);
    const isOther = this.map !== null;
    this.forgetMap();
    this.search.forget();
    this.map = map;
    this.sourceNames = Array.from({ length: map.sourceCount }, (_, id) => this.read(() => map.source(id)) ?? '');
    this.paths = new SourcePaths(this.sourceNames);
    if (isOther && this.fileName() !== this.generatedName) this.forgetGenerated();
    this.legend.show(this.sourceNames, (source) => this.hasContents(source));
    this.lookups = new Lookups(map);
    this.tokens = new Tokens(map);
    this.readTokens();
    this.showTitle();
    this.showGenerated();
    this.showFirstSource();
    this.describeSelected();
    this.trace.resolve();
    const waiting = this.waiting.splice(0);
    if (waiting.length > 0) await this.takeTexts(waiting, 'source');
  }

  readTokens() {
    const done = () => {
      this.readJob = new Job(tokensBySource(this.tokens), (bySource) => this.endReading(bySource));
    };
    this.readJob = new Job(this.tokens.read(), done, (part) => {
      byId('progress').hidden = false;
      byId('progress').value = part;
    });
  }

  endReading(bySource) {
    this.bySource = bySource;
    byId('progress').hidden = true;
    this.legend.setCounts((source) => bySource.firsts[source + 1] - bySource.firsts[source]);
    if (!this.tokens.isInOrder) this.say('This map is damaged: its tokens are not in order, so positions may be wrong.');
    if (this.currentSource >= 0) this.loadOriginals();
    for (const call of this.whenReadCalls.splice(0)) call();
    this.settle();
  }

  /** Calls back when all tokens are read. */
  whenRead(call) {
    if (this.bySource !== null) call();
    else this.whenReadCalls.push(call);
  }

  /** Says in the document whether work goes on. */
  settle() {
    const isEmpty = this.map === null && this.generatedText === null;
    const isReading = this.map !== null && (this.bySource === null || (this.currentSource >= 0 && this.originals === null));
    const isBusy = this.taking > 0 || this.isCutting || isReading;
    document.body.dataset.state = isBusy ? 'opening' : isEmpty ? 'empty' : 'ready';
    byId('start').hidden = !isEmpty;
    byId('main').hidden = isEmpty;
  }

  showTitle() {
    const name = this.generatedName ?? (this.map === null ? null : this.fileName());
    byId('title').textContent = name === null ? 'Source map viewer' : visibleText(name);
    if (name !== null) document.title = `${visibleText(name)} and its sources`;
  }

  openGenerated(text, name) {
    this.generatedText = text;
    this.generatedName = name;
    this.showTitle();
    this.search.forget();
    this.showGenerated();
    if (this.map === null) this.source.showNotice('Drop the compiled map of this text anywhere on this page.');
    this.trace.resolve();
  }

  forgetGenerated() {
    this.generatedText = null;
    this.generatedName = null;
  }

  showGenerated() {
    byId('start').hidden = true;
    byId('main').hidden = false;
    this.generatedJob?.cancel();
    this.isCutting = false;
    if (this.generatedText === null) {
      this.generated.showNotice(...pickNotice('Drop the generated text anywhere on this page, or ', 'pick it', 'pick-generated'));
      return;
    }
    if (this.generated.lines?.text === this.generatedText) {
      this.generated.setPieces(this.lookups);
      return;
    }
    this.isCutting = true;
    this.generatedJob = new Job(linesOf(this.generatedText), (lines) => {
      this.isCutting = false;
      this.generated.show(lines, this.lookups);
      this.settle();
    });
  }

  // Texts of the map

  /** What a function reads of the map; null if the map is damaged there. */
  read(call) {
    try {
      return call();
    } catch (error) {
      this.say(`This map is damaged: ${error.message}.`);
      return null;
    }
  }

  /** The name with an id, null if there is none. */
  nameOf(id) {
    let name = this.names.get(id);
    if (name === undefined) {
      if (this.names.size === MOST_NAMES_KEPT) this.names.clear();
      name = id < this.map.nameCount ? this.read(() => this.map.name(id)) : null;
      this.names.set(id, name);
    }
    return name;
  }

  /** The source with an id, null if there is none. */
  sourceName(id) {
    return this.sourceNames[id] ?? null;
  }

  /** The contents of a source, null if there are none. */
  contentsOf(source) {
    return this.contents.get(source) ?? this.read(() => this.map.sourceContent(source));
  }

  hasContents(source) {
    if (!this.hasContentsOf.has(source)) this.hasContentsOf.set(source, this.contentsOf(source) !== null);
    return this.hasContentsOf.get(source);
  }

  /** Sets the contents of a source that the map has not. */
  setContents(source, text) {
    this.contents.set(source, text);
    this.hasContentsOf.set(source, true);
    this.search.forget();
    this.legend.draw();
    if (source === this.currentSource) this.openSource(source);
  }

  /** The names that frames may have for the generated text. */
  generatedNames() {
    return new Set([this.generatedName, this.fileName()].filter((name) => name !== null && name !== ''));
  }

  // Sources

  /** Shows the source of the first token that has one, else the first source. */
  showFirstSource() {
    if (this.sourceNames.length === 0) {
      byId('source-name').textContent = '';
      this.source.showNotice('The map has no sources.');
      return;
    }
    let link = this.lookups.firstFrom(0, 0);
    for (let read = 0; link !== null && link.source < 0 && read < FIRST_TOKENS; read += 1) link = this.lookups.next(link, 'ArrowRight');
    this.showSource(link === null || link.source < 0 ? 0 : link.source);
  }

  chooseSource(source, isFinal) {
    this.showSource(source);
    if (!isFinal || !NARROW.matches) return;
    this.showLegend(false);
    this.source.element.focus();
  }

  /** Shows a source. `then` is called when it is shown, and again when its tokens are known. */
  showSource(source, then = () => {}) {
    this.onSource = then;
    if (source === this.currentSource) then();
    else this.openSource(source);
  }

  openSource(source) {
    this.currentSource = source;
    this.originals = null;
    this.legend.choose(source);
    this.showSourceName(source);
    this.settle();
    this.sourceJob?.cancel();
    const text = this.contentsOf(source);
    if (text === null) {
      this.showMissing();
      this.loadOriginals();
      return;
    }
    this.sourceJob = new Job(linesOf(text), (lines) => {
      this.source.show(lines, null);
      this.loadOriginals();
    });
  }

  showSourceName(source) {
    const name = visibleText(this.sourceNames[source]);
    byId('source-name').textContent = name;
    byId('source-name').title = name;
    byId('source-swatch').style.setProperty('--hue', hueOf(source).toFixed(2));
  }

  showMissing() {
    const text = element('p', '', 'The map holds no contents of this source.');
    const way = element('p');
    way.append(...pickNotice('Drop its file or its folder anywhere on this page, or ', 'pick the folder', 'pick-sources'));
    this.source.showNotice(text, way);
  }

  /** Finds the original positions of the current source, if all tokens are read. */
  loadOriginals() {
    const { bySource, currentSource: source, tokens } = this;
    if (bySource === null) {
      this.onSource();
      return;
    }
    const ofSource = bySource.order.subarray(bySource.firsts[source], bySource.firsts[source + 1]);
    this.sourceJob = new Job(originalsOf(tokens, ofSource), (originals) => {
      this.originals = originals;
      if (this.source.lines !== null) this.source.setPieces(originals);
      this.describeSelected();
      this.onSource();
      this.settle();
    });
    if (this.originals === null) this.onSource();
  }

  // Selection

  /** Handles a click: selects the token. A further click in a source selects the next token of that position. */
  pick(pane, link) {
    if (link === null) return;
    if (pane === this.source && isLinked(this.selected, link)) this.selectNextToken();
    else this.select(link);
  }

  /** Selects the token closest to a generated position. */
  selectPosition(line, column) {
    const link = this.lookups.closest(line, column);
    if (link !== null) this.select(link);
  }

  select(link) {
    clearTimeout(this.hoverTimer);
    this.selected = link;
    if (link.source >= 0) this.showSource(link.source, () => this.source.reveal(link.line, link.column));
    else this.source.mark();
    this.generated.reveal(link.at.line, link.at.column);
    this.describeSelected();
  }

  /** Selects the next token of the same original position. */
  selectNextToken() {
    const others = this.linksBeside(this.selected);
    if (others.length === 0) return;
    const at = placeIn(others, this.selected) + 1;
    this.select(others[at < others.length ? at : 0]);
  }

  /** The links of all tokens with the original position of a link, as far as they are known. */
  linksBeside(link) {
    if (link === null || this.originals === null) return [];
    const piece = this.originals.place(link);
    return piece < 0 ? [] : this.originals.links(piece);
  }

  clearFound() {
    for (const pane of [this.generated, this.source]) pane.setFound(null);
  }

  // The mouse and the keys

  /** Whether the mouse moved. Rows that are redrawn below it cause events too. */
  movesMouse({ clientX: x, clientY: y }) {
    const hasMoved = x !== this.mouse.x || y !== this.mouse.y;
    this.mouse = { x, y };
    return hasMoved;
  }

  /** Handles the mouse over the piece of a link, or over none. */
  hover(pane, link) {
    clearTimeout(this.hoverTimer);
    this.hovered = link;
    for (const each of [this.generated, this.source]) each.mark();
    if (this.hovered === null) this.describeSelected();
    else this.hoverTimer = setTimeout(() => this.rest(pane), HOVER_DELAY);
  }

  /** Handles the mouse that rests on a piece: scrolls its partner into view, if the source is the current one. */
  rest(pane) {
    const link = isLinked(this.hovered, this.selected) ? this.selected : this.hovered;
    this.status.textContent = this.describe(link);
    if (pane === this.source) this.generated.reveal(link.at.line, link.at.column);
    else if (link.source >= 0 && link.source === this.currentSource) this.source.reveal(link.line, link.column);
  }

  press(pane, event) {
    if (event.altKey || event.ctrlKey || event.metaKey) return;
    if (event.key === '/') {
      byId('query').focus();
      event.preventDefault();
      return;
    }
    if (pane.rows === null || pane.pieces === null || pane.pieces.count === 0) return;
    if (event.key === 'Enter') {
      this.selectNextToken();
    } else if (KEYS.has(event.key)) {
      const link = pane.pieces.next(this.selected, event.key);
      if (link !== null) this.select(link);
    } else {
      return;
    }
    event.preventDefault();
  }

  // The line of the status

  describeSelected() {
    this.status.textContent = this.selected === null ? this.describeMap() : this.describe(this.selected);
  }

  describeMap() {
    if (this.map === null) return '';
    return `${countText(this.map.tokenCount, 'mapping')}, ${countText(this.sourceNames.length, 'source')}`;
  }

  describe(link) {
    const generated = positionText(link.at.line, link.at.column);
    if (link.source < 0) return `Generated ${generated}: no original position`;
    const original = `${visibleText(this.sourceNames[link.source])} ${positionText(link.line, link.column)}`;
    const name = this.nameOf(link.name);
    const named = name === null ? '' : `, name ${visibleText(name)}`;
    return `Generated ${generated} \u2192 ${original}${named}${this.describeOthers(link)}`;
  }

  describeOthers(link) {
    const others = this.linksBeside(link);
    return others.length < 2 ? '' : ` (${placeIn(others, link) + 1} of ${others.length})`;
  }
}

/** A text that ends with a button, which opens the dialog of a file input. */
function pickNotice(text, action, input) {
  const button = element('button', 'link', action);
  button.type = 'button';
  button.addEventListener('click', () => byId(input).click());
  return [text, button, '.'];
}

/** The bytes of a text of base64. */
function bytesOf(base64) {
  if (Uint8Array.fromBase64 !== undefined) return Uint8Array.fromBase64(base64);
  const characters = atob(base64);
  const bytes = new Uint8Array(characters.length);
  for (let at = 0; at < bytes.length; at += 1) bytes[at] = characters.charCodeAt(at);
  return bytes;
}

/** Opens what the file of this page holds: a map and its generated text, or nothing. */
async function begin() {
  const page = new Page();
  const data = JSON.parse(byId('data').textContent);
  byId('data').remove();
  page.taking += 1;
  try {
    CompiledMap.useModule(bytesOf(byId('module').textContent));
    if (data !== null) {
      page.openGenerated(data.generated, data.name);
      await page.openMap(bytesOf(data.map));
      for (const [source, text] of Object.entries(data.contents)) page.setContents(Number(source), text);
    } else if (!CompiledMap.isSupported()) {
      await CompiledMap.load(new Uint8Array(0));
    }
  } catch (error) {
    page.say(error.message);
  }
  page.taking -= 1;
  page.settle();
}

begin();
