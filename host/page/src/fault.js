// What is wrong with what a reader gave, in one line, as `gauge` tells it.

export class Fault extends Error {
    // The setting that it is about, where it is about one.
    constructor(text, setting = null) {
        super(text.replace(/\p{Cc}/gu, '?'));
        this.setting = setting;
    }
}

// What is wrong in one line of a file, counted from 1.
export const atLine = (file, line, what) => new Fault(`${file}:${line}: ${what}`);

const distance = (one, other) => {
    let row = Array.from({ length: other.length + 1 }, (_, at) => at);
    Array.from(one).forEach((letter, first) => {
        const next = [first + 1];
        Array.from(other).forEach((wanted, at) => {
            const changed = row[at] + (letter === wanted ? 0 : 1);
            next.push(Math.min(changed, row[at + 1] + 1, next[at] + 1));
        });
        row = next;
    });
    return row[other.length];
};

// `; did you mean WORD?` for the known word that at most two letters make of `word`.
export const didYouMean = (word, known) => {
    const apart = known.map((one) => distance(word, one));
    const least = Math.min(...apart);
    const nearest = known[apart.indexOf(least)];
    return nearest && least <= Math.min(2, nearest.length - 1) ? `; did you mean ${nearest}?` : '';
};
