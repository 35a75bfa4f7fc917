// The door of psamathyr.wasm for a page or Node: the seven functions over Uint8Arrays, which are copied in and, where the door writes to
// them, copied back. A pile record is lent as 8 bytes or, with the grade of its site, as 10. The record of a sand tip is
// `{ angle, weightBelow, weightAbove }` in hundredths of a degree and N/m³, or null for none. In a page:
// `await open(await (await fetch("psamathyr.wasm")).arrayBuffer())`; in Node: `await open(readFileSync(path))`.

const PAGE = 65536;

// Bytes of each struct, as include/psamathyr.h lays them out.
const SIZES = { answer: 56, log: 400, pile: 28, sand: 16, slice: 16 };

export async function open(bytes) {
    const { instance } = await WebAssembly.instantiate(bytes, {});
    return new Door(instance.exports);
}

class Door {
    constructor(exports) {
        this.exports = exports;
        this.memory = exports.memory;
        this.heap = (Number(exports.__heap_base.value) + 15) & ~15;
    }

    // Lays out a call: a place for the reply, then each piece, each at a multiple of 16.
    #lend(size, pieces) {
        const places = [this.heap];
        let end = this.heap + size;
        for (const piece of pieces) {
            end = (end + 15) & ~15;
            places.push(end);
            end += piece.length;
        }
        const short = end - this.memory.buffer.byteLength;
        if (short > 0) this.memory.grow(Math.ceil(short / PAGE));
        const bytes = new Uint8Array(this.memory.buffer);
        bytes.fill(0, this.heap, this.heap + size);
        pieces.forEach((piece, i) => bytes.set(piece, places[i + 1]));
        return places;
    }

    #reply(size) {
        return new DataView(this.memory.buffer.slice(this.heap, this.heap + size));
    }

    #back(piece, place) {
        piece.set(new Uint8Array(this.memory.buffer, place, piece.length));
    }

    calculate(log, pile, sand, table) {
        const [reply, l, p, s, t] = this.#lend(SIZES.answer, [log, pile, sandBytes(sand), table]);
        this.exports.psamathyr_calculate(reply, l, BigInt(log.length), p, BigInt(pile.length), s, t, BigInt(table.length));
        this.#back(table, t);
        return answerOf(this.#reply(SIZES.answer));
    }

    edit(log, pile, sand, table, kind, k, x, row) {
        const [reply, l, p, s, t, r] = this.#lend(SIZES.answer, [log, pile, sandBytes(sand), table, row]);
        this.exports.psamathyr_edit(reply, l, BigInt(log.length), p, BigInt(pile.length), s, t, BigInt(table.length), kind, k, x, r, BigInt(row.length));
        this.#back(log, l);
        this.#back(table, t);
        return answerOf(this.#reply(SIZES.answer));
    }

    readLog(log) {
        const [reply, l] = this.#lend(SIZES.log, [log]);
        this.exports.psamathyr_read_log(reply, l, BigInt(log.length));
        return logOf(this.#reply(SIZES.log));
    }

    packLog(fields, log) {
        const [reply, f, l] = this.#lend(SIZES.answer, [logBytes(fields), log]);
        this.exports.psamathyr_pack_log(reply, f, l, BigInt(log.length));
        this.#back(log, l);
        return answerOf(this.#reply(SIZES.answer));
    }

    readPile(pile) {
        const [reply, p] = this.#lend(SIZES.pile, [pile]);
        this.exports.psamathyr_read_pile(reply, p, BigInt(pile.length));
        return pileOf(this.#reply(SIZES.pile));
    }

    packPile(fields, pile) {
        const [reply, f, p] = this.#lend(SIZES.answer, [pileBytes(fields), pile]);
        this.exports.psamathyr_pack_pile(reply, f, p, BigInt(pile.length));
        this.#back(pile, p);
        return answerOf(this.#reply(SIZES.answer));
    }

    readSlice(table, place) {
        const [reply, t] = this.#lend(SIZES.slice, [table]);
        this.exports.psamathyr_read_slice(reply, t, BigInt(table.length), place);
        return sliceOf(this.#reply(SIZES.slice));
    }
}

function refusalOf(view) {
    return { refusal: view.getUint32(0, true), row: view.getUint32(4, true), field: view.getUint32(8, true) };
}

function answerOf(view) {
    const long = at => view.getBigUint64(at, true);
    return { ...refusalOf(view), kept: view.getUint32(12, true), line: long(16), tip: long(24), shaft: long(32), capacity: long(40), uplift: long(48) };
}

function rowOf(view, at) {
    return {
        thickness: view.getUint16(at, true),
        kind: view.getUint8(at + 2),
        index: view.getUint8(at + 3),
        saturation: view.getUint8(at + 4),
        zero: view.getUint8(at + 5),
    };
}

function logOf(view) {
    const rows = [];
    for (let i = 0; i < 64; i++) rows.push(rowOf(view, 14 + 6 * i));
    return { ...refusalOf(view), count: view.getUint8(12), rows };
}

function logBytes(fields) {
    const view = new DataView(new ArrayBuffer(SIZES.log));
    view.setUint8(12, fields.count);
    fields.rows.forEach((row, i) => {
        const at = 14 + 6 * i;
        view.setUint16(at, row.thickness, true);
        [row.kind, row.index, row.saturation, row.zero].forEach((value, j) => view.setUint8(at + 2 + j, value));
    });
    return new Uint8Array(view.buffer);
}

function pileOf(view) {
    return {
        ...refusalOf(view),
        length: view.getUint8(12),
        section: view.getUint8(13),
        a: view.getUint16(14, true),
        b: view.getUint16(16, true),
        method: view.getUint8(18),
        head: view.getUint16(20, true),
        tip: view.getUint16(22, true),
        zero: view.getUint8(24),
        grade: view.getInt16(26, true),
    };
}

// What packing looks at: section to grade. Fields without a grade have grade 0.
function pileBytes(fields) {
    const view = new DataView(new ArrayBuffer(SIZES.pile));
    view.setUint8(13, fields.section);
    view.setUint16(14, fields.a, true);
    view.setUint16(16, fields.b, true);
    view.setUint8(18, fields.method);
    view.setUint16(20, fields.head, true);
    view.setUint16(22, fields.tip, true);
    view.setUint8(24, fields.zero);
    view.setInt16(26, fields.grade ?? 0, true);
    return new Uint8Array(view.buffer);
}

// A record that says `given` itself (replay.mjs) goes over with that number.
function sandBytes(sand) {
    const view = new DataView(new ArrayBuffer(SIZES.sand));
    const fields = sand ? [sand.given ?? 1, sand.angle, sand.weightBelow, sand.weightAbove] : [];
    fields.forEach((value, i) => view.setUint32(4 * i, value, true));
    return new Uint8Array(view.buffer);
}

function sliceOf(view) {
    return {
        refusal: view.getUint32(0, true),
        top: view.getUint16(4, true),
        thickness: view.getUint16(6, true),
        friction: view.getUint32(8, true),
        factor: view.getUint8(12),
    };
}
