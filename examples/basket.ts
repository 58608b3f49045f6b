// A shopping basket, to make a source map of.
interface Line {
  article: string;
  pieces: number;
  cents: number;
}

type Rule = (lines: readonly Line[]) => number;

const everyThirdIsFree = (article: string): Rule => (lines) => {
  let saved = 0;
  for (const line of lines) {
    if (line.article === article) {
      saved += Math.floor(line.pieces / 3) * line.cents;
    }
  }
  return saved;
};

const tenPercentAbove = (limit: number): Rule => (lines) => {
  const total = lines.reduce((sum, line) => sum + line.pieces * line.cents, 0);
  return total > limit ? Math.round(total / 10) : 0;
};

export class Basket {
  private readonly lines: Line[] = [];
  private readonly rules: Rule[] = [everyThirdIsFree("pear"), tenPercentAbove(5000)];

  put(article: string, cents: number, pieces = 1): this {
    const known = this.lines.find((line) => line.article === article && line.cents === cents);
    if (known) {
      known.pieces += pieces;
    } else {
      this.lines.push({ article, pieces, cents });
    }
    return this;
  }

  take(article: string): void {
    const place = this.lines.findIndex((line) => line.article === article);
    if (place < 0) {
      throw new RangeError(`no ${article} in the basket`);
    }
    this.lines[place].pieces -= 1;
    if (this.lines[place].pieces === 0) {
      this.lines.splice(place, 1);
    }
  }

  get total(): number {
    const plain = this.lines.reduce((sum, line) => sum + line.pieces * line.cents, 0);
    const best = Math.max(...this.rules.map((rule) => rule(this.lines)));
    return plain - best;
  }

  receipt(width = 32): string {
    const rows = this.lines.map(({ article, pieces, cents }) => {
      const price = `${((pieces * cents) / 100).toFixed(2)}`;
      return `${pieces} x ${article}`.padEnd(width - price.length) + price;
    });
    const sum = (this.total / 100).toFixed(2);
    return [...rows, "to pay".padEnd(width - sum.length) + sum].join("\n");
  }
}

const basket = new Basket();
basket.put("pear", 45, 4).put("bread", 320).put("cheese", 2890, 2);
console.log(basket.receipt());
