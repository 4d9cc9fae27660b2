// The proved module: unpacked, made an instance of, and called. It hands bytes in and takes answers out, and knows
// nothing of the machine.

/** The module of a text in base64, which is packed by gzip. */
export async function unpack(text) {
  const packed = Uint8Array.from(atob(text), (letter) => letter.charCodeAt(0));
  const stream = new Blob([packed]).stream().pipeThrough(new DecompressionStream("gzip"));
  return WebAssembly.compile(await new Response(stream).arrayBuffer());
}

/** A text of the program: each byte is a character. */
export const textOf = (bytes) => new TextDecoder("latin1").decode(bytes);

/** The bytes of a text. */
export const bytesOf = (text) => new TextEncoder().encode(text);

// What the module writes of each answer: two lengths of eight bytes, the status, and whether the answer had room.
const ANSWER_BYTES = 24;
// Room for an answer, at least and for each byte that is handed over. If it is too little, the call is made again.
const LEAST_ROOM = 1 << 20;
const ROOM_A_BYTE = 6;

/** An instance of the module. One that a trap left in the middle of a call is never called again: the next is new. */
export class Instance {
  constructor(module) {
    Object.assign(this, { module, exports: null });
  }

  // Bytes of the module's own, that many.
  take(length) {
    const at = this.exports.host_take(BigInt(length));
    if (!at) throw new Error("the page has no more memory");
    return at;
  }

  begin() {
    this.exports = new WebAssembly.Instance(this.module).exports;
    this.answer = this.take(ANSWER_BYTES);
    this.room = 0;
  }

  makeRoom(length) {
    if (length <= this.room) return;
    if (this.room) this.exports.host_give(this.out);
    this.room = length;
    this.out = this.take(length);
  }

  // Bytes that the module is handed, as its place and length; other values as they are.
  hand(value, held) {
    if (!ArrayBuffer.isView(value)) return [typeof value === "boolean" ? Number(value) : value];
    const at = this.take(value.length);
    held.push(at);
    new Uint8Array(this.exports.memory.buffer).set(value, Number(at));
    return [at, BigInt(value.length)];
  }

  // The answer of the last call, or how much room it wants.
  read() {
    const view = new DataView(this.exports.memory.buffer, Number(this.answer), ANSWER_BYTES);
    const length = Number(view.getBigUint64(0, true));
    const told = Number(view.getBigUint64(8, true));
    if (!view.getUint8(17)) return { wanted: length + told };
    const bytes = new Uint8Array(this.exports.memory.buffer, Number(this.out), length + told);
    return { status: view.getUint8(16), out: bytes.slice(0, length), told: textOf(bytes.subarray(length)) };
  }

  /** Calls an export. Bytes are handed over, other values are passed as they are. */
  call(name, values) {
    if (!this.exports) this.begin();
    const held = [];
    try {
      const words = values.flatMap((value) => this.hand(value, held));
      const handed = values.reduce((all, it) => all + (it.length ?? 0), 0);
      this.makeRoom(Math.max(LEAST_ROOM, ROOM_A_BYTE * handed));
      for (;;) {
        this.exports[name](...words, this.out, BigInt(this.room), this.answer);
        const answer = this.read();
        if (answer.wanted === undefined) return answer;
        this.makeRoom(answer.wanted);
      }
    } catch (error) {
      this.exports = null;
      throw error;
    } finally {
      if (this.exports) held.forEach((at) => this.exports.host_give(at));
    }
  }
}
