"use strict";
// The calls of proved code: texts go in, what is printed and a status come out.

const FIRST_ROOM = 65536;

class Calls {
  // The module, packed and in base 64.
  static async load(packed) {
    const bytes = Uint8Array.from(atob(packed), (letter) => letter.charCodeAt(0));
    const unpacked = new Blob([bytes]).stream().pipeThrough(new DecompressionStream("gzip"));
    return new Calls(await WebAssembly.compile(await new Response(unpacked).arrayBuffer()));
  }

  constructor(module) {
    this.module = module;
    this.begin();
  }

  // An instance in which a call failed refuses all others, so a fresh one takes its place.
  begin() {
    this.exports = new WebAssembly.Instance(this.module).exports;
  }

  verify(text) {
    return this.call("sts_verify", [], [text]);
  }

  list(text) {
    return this.call("sts_list", [], [text]);
  }

  plain(text, trace) {
    return this.call("sts_plain", [], [text, trace]);
  }

  view(text, trace, { each = false, full = false } = {}) {
    return this.call("sts_view", [Number(each), Number(full)], [text, trace]);
  }

  // With lines and names of the text.
  namedView(text, trace, { each = false, full = false } = {}) {
    return this.call("sts_named_view", [Number(each), Number(full)], [text, trace]);
  }

  draw(text, trace, { brief = false } = {}) {
    return this.call("sts_draw", [Number(brief)], [text, trace]);
  }

  explain(text) {
    return this.call("sts_explain", [], [text]);
  }

  explainRun(text, trace) {
    return this.call("sts_explain_run", [], [text, trace]);
  }

  // At most so many states are kept.
  ends(text, most, { expiries = true, interrupts = 0 } = {}) {
    return this.call("sts_ends", [most, Number(expiries), interrupts], [text]);
  }

  // Also the trace of the end of this number.
  endsAndTrace(text, most, number, { expiries = true, interrupts = 0 } = {}) {
    return this.call("sts_ends_and_trace", [most, Number(expiries), interrupts, number], [text], ["text", "trace"]);
  }

  // The status, and each output by its name.
  call(name, words, texts, outputs = ["text"]) {
    try {
      return this.answer(name, words, texts.map((text) => new TextEncoder().encode(text)), outputs);
    } catch (error) {
      this.begin();
      throw error;
    }
  }

  answer(name, words, texts, outputs) {
    const given = texts.map((bytes) => [this.put(bytes), BigInt(bytes.length)]);
    const printed = this.ask(name, [...words, ...given.flat()], outputs.map(() => FIRST_ROOM));
    given.forEach(([at]) => this.exports.give_back(at));
    return { status: printed.status, ...Object.fromEntries(outputs.map((output, k) => [output, printed.texts[k]])) };
  }

  // Asks with room for so many bytes of each output, and again if an output has more.
  ask(name, words, lengths) {
    const rooms = lengths.map((length) => [this.take(length), BigInt(length), this.take(8)]);
    const status = this.exports[name](...words, ...rooms.flat());
    const sizes = rooms.map(([, , size]) => this.number(size));
    const texts = rooms.map(([at], k) => new TextDecoder().decode(this.bytes(at, Math.min(sizes[k], lengths[k]))));
    rooms.forEach(([at, , size]) => [at, size].forEach((it) => this.exports.give_back(it)));
    const isWhole = sizes.every((size, k) => size <= lengths[k]);
    return isWhole ? { status, texts } : this.ask(name, words, sizes.map((size, k) => Math.max(size, lengths[k])));
  }

  number(at) {
    return Number(new DataView(this.exports.memory.buffer).getBigUint64(Number(at), true));
  }

  put(bytes) {
    const at = this.take(bytes.length);
    this.bytes(at, bytes.length).set(bytes);
    return at;
  }

  take(length) {
    const at = this.exports.take(BigInt(length));
    if (at === 0n) {
      throw new Error("there is no memory left");
    }
    return at;
  }

  bytes(at, length) {
    return new Uint8Array(this.exports.memory.buffer, Number(at), length);
  }
}
