// Blocks of a text, each of so many bytes and of so many UTF-16 units, and how many of both stand before each: in two Fenwick trees, so
// that a block which grows changes as many sums as the number of blocks has binary digits.
export class Blocks {
    #blocks = [];
    #bytes = [0];
    #units = [0];
    // The greatest power of two that isn't above the number of blocks.
    #half = 0;
    // The block that was found last, and what stands before it.
    #found = { index: 0, block: /** @type {any} */ (undefined), byte: 0, unit: 0 };
    // How many units all have.
    units = 0;

    get length() {
        return this.#blocks.length;
    }

    // The last block that begins at a byte or before it, with what stands before the block. The next search answers the same object.
    ofByte(at) {
        const { block, byte } = this.#found;
        return block !== undefined && at >= byte && at - byte < block.length ? this.#found : this.#search(this.#bytes, at);
    }

    // The same of a unit.
    ofUnit(at) {
        const { block, unit } = this.#found;
        return block !== undefined && at >= unit && at - unit < block.units ? this.#found : this.#search(this.#units, at);
    }

    #search(sums, at) {
        let index = 0, byte = 0, unit = 0, left = at;
        for (let step = this.#half; step > 0; step >>= 1) {
            const next = index + step;
            // (what is behind all blocks is the last one's)
            if (next >= this.#blocks.length || sums[next] > left) continue;
            index = next;
            left -= sums[next];
            byte += this.#bytes[next];
            unit += this.#units[next];
        }
        const found = this.#found;
        found.index = index;
        found.block = this.#blocks[index];
        found.byte = byte;
        found.unit = unit;
        return found;
    }

    // The block that was found last has so many more, or fewer.
    grow(bytes, units) {
        this.units += units;
        for (let at = this.#found.index + 1; at <= this.#blocks.length; at += at & -at) {
            this.#bytes[at] += bytes;
            this.#units[at] += units;
        }
    }

    // Up to this one, from the one of this index on.
    slice(first, last) {
        return this.#blocks.slice(first, last);
    }

    splice(first, many, made) {
        this.#blocks.splice(first, many, ...made);
        this.#bytes = [0, ...this.#blocks.map(({ length }) => length)];
        this.#units = [0, ...this.#blocks.map(({ units }) => units)];
        this.units = this.#units.reduce((sum, units) => sum + units);
        for (let at = 1; at < this.#bytes.length; at += 1) {
            const above = at + (at & -at);
            if (above >= this.#bytes.length) continue;
            this.#bytes[above] += this.#bytes[at];
            this.#units[above] += this.#units[at];
        }
        this.#half = this.length === 0 ? 0 : 2 ** (31 - Math.clz32(this.length));
        this.#search(this.#bytes, 0);
    }
}
