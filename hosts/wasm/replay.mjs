// Makes the calls of a record (second/src/record.rs, from standard input) again with psamathyr.wasm: each reply and each lent buffer must be
// what the record has, byte for byte. Usage: node hosts/wasm/replay.mjs psamathyr.wasm <record. The last line is 'N passed, 0 failed'.
import { readFileSync } from "node:fs";
import { open } from "./psamathyr.mjs";

const SHOWN = 5;
const door = await open(readFileSync(process.argv[2]));
let passed = 0;
let failed = 0;

// What is read of standard input, a chunk at a time.
class Reader {
    constructor(chunks) {
        this.chunks = chunks;
        this.bytes = Buffer.alloc(0);
        this.at = 0;
    }

    // Whether so many bytes more are there.
    async has(count) {
        while (this.bytes.length - this.at < count) {
            const { value, done } = await this.chunks.next();
            if (done) return false;
            this.bytes = Buffer.concat([this.bytes.subarray(this.at), value]);
            this.at = 0;
        }
        return true;
    }

    take(count) {
        this.at += count;
        return this.bytes.subarray(this.at - count, this.at);
    }

    async part(count) {
        if (!(await this.has(count))) throw new Error("the record ends within a call");
        return this.take(count);
    }

    async byte() {
        return (await this.part(1))[0];
    }

    async number() {
        return (await this.part(4)).readUInt32LE();
    }

    async piece() {
        return new Uint8Array(await this.part(await this.number()));
    }

    async refusal() {
        return { refusal: await this.number(), row: await this.number(), field: await this.number() };
    }

    async answer() {
        const head = { ...(await this.refusal()), kept: await this.number() };
        const five = await this.part(40);
        ["line", "tip", "shaft", "capacity", "uplift"].forEach((name, i) => (head[name] = five.readBigUInt64LE(8 * i)));
        return head;
    }

    async log() {
        const head = { ...(await this.refusal()), count: await this.byte(), rows: [] };
        const rows = await this.part(6 * 64);
        for (let i = 0; i < 64; i++) {
            const row = rows.subarray(6 * i);
            head.rows.push({ thickness: row.readUInt16LE(0), kind: row[2], index: row[3], saturation: row[4], zero: row[5] });
        }
        return head;
    }

    async pile() {
        const head = await this.refusal();
        const part = await this.part(14);
        return {
            ...head,
            length: part[0],
            section: part[1],
            a: part.readUInt16LE(2),
            b: part.readUInt16LE(4),
            method: part[6],
            head: part.readUInt16LE(7),
            tip: part.readUInt16LE(9),
            zero: part[11],
            grade: part.readInt16LE(12),
        };
    }

    async sand() {
        return { given: await this.number(), angle: await this.number(), weightBelow: await this.number(), weightAbove: await this.number() };
    }

    async slice() {
        const refusal = await this.number();
        const part = await this.part(9);
        return { refusal, top: part.readUInt16LE(0), thickness: part.readUInt16LE(2), friction: part.readUInt32LE(4), factor: part[8] };
    }
}

const text = value => JSON.stringify(value, (key, part) => (typeof part === "bigint" ? part.toString() : part));

function compare(name, got, due) {
    const same = got.every((value, i) => (value instanceof Uint8Array ? Buffer.compare(value, due[i]) === 0 : text(value) === text(due[i])));
    if (same) {
        passed++;
        return;
    }
    failed++;
    if (failed <= SHOWN) console.log(`${name}: ${text(got)} is not ${text(due)}`);
}

// Each function: its arguments are read, the call is made, and what the record has of it is read.
const calls = {
    1: async read => {
        const [log, pile, sand, table] = [await read.piece(), await read.piece(), await read.sand(), await read.piece()];
        compare("calculate", [door.calculate(log, pile, sand, table), table], [await read.answer(), await read.piece()]);
    },
    2: async read => {
        const [log, pile, sand, table] = [await read.piece(), await read.piece(), await read.sand(), await read.piece()];
        const [kind, k, x, row] = [await read.number(), await read.number(), await read.number(), await read.piece()];
        compare("edit", [door.edit(log, pile, sand, table, kind, k, x, row), log, table], [await read.answer(), await read.piece(), await read.piece()]);
    },
    3: async read => compare("read_log", [door.readLog(await read.piece())], [await read.log()]),
    4: async read => {
        const [fields, log] = [await read.log(), await read.piece()];
        compare("pack_log", [door.packLog(fields, log), log], [await read.answer(), await read.piece()]);
    },
    5: async read => compare("read_pile", [door.readPile(await read.piece())], [await read.pile()]),
    6: async read => {
        const [fields, pile] = [await read.pile(), await read.piece()];
        compare("pack_pile", [door.packPile(fields, pile), pile], [await read.answer(), await read.piece()]);
    },
    7: async read => {
        const [table, place] = [await read.piece(), await read.number()];
        compare("read_slice", [door.readSlice(table, place)], [await read.slice()]);
    },
};

const read = new Reader(process.stdin[Symbol.asyncIterator]());
while (await read.has(1)) {
    const function_ = await read.byte();
    if (!calls[function_]) throw new Error(`no function ${function_}`);
    await calls[function_](read);
}
console.log(`${passed} passed, ${failed} failed`);
process.exitCode = failed === 0 && passed > 0 ? 0 : 1;
