// The engine: the calls of include/t1edit.h, on a WebAssembly module whose memory has 64-bit addresses. They are called here alone.

const DONE = 0, REFUSED = 1, MISUSED = 4
// The bytes of a pointer and of a length, and of a session.
const WORD = 8, SESSION = 16

/* A text here is Latin-1: a byte is the character with its number. What is no byte becomes a question mark. */
function bytesOf(text) {
  const bytes = new Uint8Array(text.length)
  for (let at = 0; at < text.length; at++) bytes[at] = text.charCodeAt(at) < 256 ? text.charCodeAt(at) : 63
  return bytes
}

function textOf(bytes) {
  const piece = 1 << 13
  let text = ""
  for (let at = 0; at < bytes.length; at += piece) text += String.fromCharCode(...bytes.subarray(at, at + piece))
  return text
}

/* The bytes of what was packed by gzip and written in base64. */
async function unpacked(text) {
  const stream = new Blob([bytesOf(atob(text))]).stream().pipeThrough(new DecompressionStream("gzip"))
  return new Response(stream).arrayBuffer()
}

class Engine {
  static async load(packed) {
    const { instance } = await WebAssembly.instantiate(await unpacked(packed))
    return new Engine(instance.exports)
  }

  constructor(exports) {
    this.exports = exports
    this.isBroken = false
    this.length = this.block(WORD)
    this.makeRoom(1 << 16)
  }

  // (the memory moves where it grows, so a view of it is made for each use)
  get memory() { return new Uint8Array(this.exports.memory.buffer) }
  get view() { return new DataView(this.exports.memory.buffer) }

  /* Makes a call. After one that stopped in its midst none is made, since its memory may be half written. */
  call(name, ...given) {
    if (this.isBroken) throw new Error("the engine has stopped: open the page again")
    this.isBroken = true
    const answer = this.exports[name](...given)
    this.isBroken = false
    return answer
  }

  /* A block of so many bytes, all 0. */
  block(length) {
    const at = this.call("malloc", BigInt(Math.max(1, length)))
    if (!at) throw new Refused("out of memory")
    this.memory.fill(0, Number(at), Number(at) + length)
    return at
  }

  free(at) { this.call("free", at) }

  makeRoom(length) {
    const out = this.block(length)
    if (this.out) this.free(this.out)
    this.out = out
    this.room = length
  }

  /* Makes a call that tells something: its status, and the bytes that it tells. Bytes are handed in as their place and length. */
  tell(name, ...given) {
    const lent = []
    try {
      const words = given.flatMap(it => {
        if (!(it instanceof Uint8Array)) return [it]
        const at = this.block(it.length)
        this.memory.set(it, Number(at))
        lent.push(at)
        return [at, BigInt(it.length)]
      })
      this.view.setBigUint64(Number(this.length), 0n, true)
      const status = this.call(name, ...words, this.out, BigInt(this.room), this.length)
      const length = Number(this.view.getBigUint64(Number(this.length), true))
      if (length <= this.room) return { status, bytes: this.memory.slice(Number(this.out), Number(this.out) + length) }
      this.makeRoom(2 * length)
    } finally {
      if (!this.isBroken) for (const it of lent) this.free(it)
    }
    // it had no room for all: an answer is told again, and what isn't a session's is made again
    return name === "t1edit_perform" ? this.tell("t1edit_answer", given[0]) : this.tell(name, ...given)
  }

  version() { return this.call("t1edit_version") }

  /* Files of a source, and the source of a font's file. */
  assemble(source) { return this.tell("t1edit_assemble", source) }
  assembleBlocks(source, size) { return this.tell("t1edit_assemble_blocks", source, BigInt(size)) }
  assemblePfa(source) { return this.tell("t1edit_assemble_pfa", source) }
  measure(source, pairs) { return this.tell("t1edit_measure", source, pairs) }
  check(source, pairs) { return this.tell("t1edit_check", source, pairs) }
  disassemble(font) { return this.tell("t1edit_disassemble", font) }

  /* All faults of a source and its pairs, where the library tells them: the text, line, column, code, place, word and hint of each. */
  faults(source, pairs) {
    if (!("t1edit_faults" in this.exports)) return []
    return textOf(this.tell("t1edit_faults", source, pairs).bytes).split("\n").filter(Boolean).map(line => line.split("\t"))
  }

  /* A session on a source and its pairs. The fault of one that is refused is thrown, as "F22 subr 7". */
  open(source, pairs) {
    const at = this.block(SESSION), { status, bytes } = this.tell("t1edit_open", source, pairs, at)
    if (status === DONE) return new Session(this, at)
    this.free(at)
    throw new Refused(status === REFUSED ? textOf(bytes) : "out of memory")
  }
}

/* What the engine refuses, by its code and its place, where it has one. */
class Refused extends Error {
  get code() { return this.message.split(" ")[0] }
}

class Session {
  constructor(engine, at) {
    this.engine = engine
    this.at = at
  }

  close() {
    this.engine.call("t1edit_close", this.at)
    this.engine.free(this.at)
  }

  /* Performs a command, and gives its answer as a session writes it (docs/SESSION.md). */
  answer(line, body = "") {
    const { status, bytes } = this.engine.tell("t1edit_perform", this.at, bytesOf(line), bytesOf(body))
    if (status === MISUSED) throw new Refused("a line with nothing but a dot can't stand in a body")
    if (status !== DONE) throw new Refused("out of memory")
    return bytes
  }

  /* Performs a command, and gives the bytes of its data, of which an edit has none. */
  data(line, body) {
    const answer = this.answer(line, body), end = answer.indexOf(10), said = textOf(answer.subarray(0, end))
    if (said.startsWith("refused ")) throw new Refused(said.slice("refused ".length))
    return answer.subarray(end + 1, -1)
  }

  text(line, body) { return textOf(this.data(line, body)) }
}
