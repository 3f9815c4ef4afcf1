// A font that is open: its glyphs as they are drawn and measured, kept current under edits. Lengths are in character space units.

const PFB = 128
const NO_PAIRS = new Uint8Array(0)
const LACKS_A_PART = "F45"
// A glyph's line of the AFM file; and a composite's line of the usage table, with its base and its accent.
const METRICS = /^C (\S+) ; WX? (\S+)(?: \S+)? ; N (\S+) ; B (\S+ \S+ \S+ \S+) ;/gm
const PARTS = /^U (\S+) ;.* P (\S+) ; P (\S+) ;/gm
// A call of a Subr by its number, also where hints are replaced.
const CALL = /([0-9]+)\s+(?:1\s+3\s+callothersubr\s+pop\s+)?callsubr/g

/* A number as the engine writes it, exact: 5, or 5/2. */
function number(word) {
  const [over, under = 1] = word.split("/")
  return over / under
}

const segmentsOf = outline => outline.split("\n").filter(Boolean).map(line => {
  const [kind, ...words] = line.split(" ")
  return { kind, at: words.map(number) }
})

/* What an SVG path draws of an outline, with y upward. */
const pathOf = segments => segments.map(({ kind, at }, place) => (kind === "M" && place ? "Z" : "") + kind + at.join(" ")).join("") + (segments.length ? "Z" : "")

/* The source of a file: what a font's file is disassembled to, or its own bytes. */
function sourceOf(engine, bytes) {
  const { status, bytes: told } = engine.disassemble(bytes)
  if (status === DONE) return { source: told }
  if (bytes[0] === PFB) throw new Refused(textOf(told))
  return { source: bytes, fault: textOf(told) }
}

/* Whether a file has kerning pairs, and no font. */
function isPairs(bytes) {
  const text = textOf(bytes.subarray(0, 1 << 20))
  return bytes[0] !== PFB && !text.startsWith("%!") && /^(StartFontMetrics|StartKernData|KPX) /m.test(text)
}

class Font {
  /* Opens a font's file or a source. What is neither has two faults: the source's, and the file's. A source has all of its own. Pairs
   * with a fault are left out, and what is refused of them is the font's `without`. */
  static open(engine, bytes, pairs = NO_PAIRS) {
    const { source, fault } = sourceOf(engine, bytes)
    try {
      return Font.of(engine, source, pairs)
    } catch (error) {
      if (!(error instanceof Refused)) throw error
      error.faults = engine.faults(source, pairs)
      if (error.faults.length && error.faults.every(it => it[0] === "pairs")) return Object.assign(Font.of(engine, source, NO_PAIRS), { without: error })
      if (fault && ["F1", "F2"].includes(error.code)) error.other = new Refused(fault)
      throw error
    }
  }

  /* Opens a source. */
  static of(engine, source, pairs) {
    const session = engine.open(source, pairs)
    try {
      return new Font(session)
    } catch (error) {
      if (!engine.isBroken) session.close()
      throw error
    }
  }

  constructor(session) {
    this.session = session
    this.without = null
    this.glyphs = new Map()
    this.first = new Map()
    this.edited = new Set()
    this.readAll()
    if (!this.glyphs.size) throw new Refused("it has no glyphs")
    for (const it of this.glyphs.values()) this.draw(it)
    this.usual = { low: this.height(1, 5), middle: this.height(3, 50), high: this.height(3, 95) }
    this.readCodes()
  }

  close() { this.session.close() }

  /* What the AFM file says: names, codes, widths, boxes, pairs. */
  readAll() {
    const afm = this.session.text("print afm")
    const value = key => afm.match(new RegExp(`^${key} (.*)$`, "m"))?.[1]
    this.name = value("FullName") ?? value("FontName") ?? "a font"
    this.fileName = value("FontName") ?? "font"
    this.box = value("FontBBox").split(" ").map(Number)
    this.readPairs(afm)
    for (const it of afm.matchAll(METRICS)) this.measure(it)
  }

  readPairs(lines) {
    this.pairs = new Map(Array.from(lines.matchAll(/^KPX (\S+) (\S+) (\S+)$/gm), ([, left, right, by]) => [`${left} ${right}`, Number(by)]))
  }

  /* Takes what a glyph's line of the AFM file says. */
  measure([, code, width, name, box]) {
    this.glyphs.set(name, { ...this.glyphs.get(name), name, code: Number(code), width: Number(width), box: box.split(" ").map(Number) })
  }

  /* Above how many of a hundred glyphs that draw a height is, at the one side of their boxes or the other. */
  height(side, share) {
    const heights = [...this.glyphs.values()].filter(it => it.box[3] > it.box[1]).map(it => it.box[side]).sort((one, other) => one - other)
    return heights[Math.floor((heights.length - 1) * share / 100)] ?? this.box[side]
  }

  readCodes() {
    const lines = this.session.text("show encoding").split("\n").filter(Boolean)
    this.codes = new Map(lines.map(line => line.split(" ")).map(([code, name]) => [Number(code), name]))
  }

  /* Has a glyph's outline drawn by the engine. */
  draw(glyph) {
    glyph.segments = segmentsOf(this.session.text(`show outline ${glyph.name}`))
    glyph.path = pathOf(glyph.segments)
    if (!this.first.has(glyph.name)) this.first.set(glyph.name, { path: glyph.path, body: null })
  }

  /* The words of a glyph, in lines. */
  body(name) {
    return this.session.text(`show glyph ${name}`).trimEnd().replace(/^\t/gm, "")
  }

  /* Gives a glyph another body, and tells which glyphs look otherwise now. Where it is refused, nothing has changed. */
  replace(name, body) {
    const first = this.first.get(name), before = first.body ?? this.body(name)
    this.session.data(`replace glyph ${name}`, body)
    first.body = before
    if (this.body(name) === before) this.edited.delete(name)
    else this.edited.add(name)
    return this.renewed(name)
  }

  renewed(name) {
    return this.standingOn(name).filter(it => {
      const before = this.looks(this.glyphs.get(it))
      this.measure([...this.session.text(`show metrics ${it}`).matchAll(METRICS)][0])
      this.draw(this.glyphs.get(it))
      return this.looks(this.glyphs.get(it)) !== before
    })
  }

  looks({ path, width, box }) { return `${path} ${width} ${box}` }

  /* A glyph, and the composites that stand on it. */
  standingOn(name) {
    const found = new Set([name]), composites = [...this.session.text("print uses").matchAll(PARTS)]
    for (let size = 0; size < found.size;) {
      size = found.size
      for (const [, it, base, accent] of composites) if (found.has(base) || found.has(accent)) found.add(it)
    }
    return [...found]
  }

  /* Sets a pair, or takes it out where there is no value. */
  kern(left, right, value) {
    if (value !== null) this.session.data(`kern ${left} ${right} ${value}`)
    else if (this.pairs.has(`${left} ${right}`)) this.session.data(`unkern ${left} ${right}`)
    this.readPairs(this.session.text("print kern"))
  }

  /* Where the last edit that was refused has its fault: from which character of its body to which, or null where no word has it. */
  guilty(name, body, refused) {
    const words = [...body.matchAll(/%[^\r\n]*|[{}]|[^\0\t\n\f\r {}%]+/g)].filter(it => !it[0].startsWith("%"))
    const span = it => it && [it.index, it.index + it[0].length]
    if (refused.code === "E6") return span(words.find(it => "{}".includes(it[0])))
    const told = this.session.text("show refusal"), at = told.match(/^word (\d+) /m), run = told.match(/^in (.*)$/m)
    const where = run ? run[1] : refused.message.slice(refused.code.length + 1)
    return at && told.startsWith(`${refused.message}\n`) && where === `glyph ${name}` ? span(words[at[1] - 1]) : null
  }

  /* What more is known of the fault of a body that was refused, as "hlineto?", where the library tells it of a font that has no
   * other glyph, and no Subr but those that the body calls. So what a composite lacks isn't told, nor a Subr that is there. */
  hint(name, body, refused) {
    const subrs = this.called(body)
    const source = ["%!", "/Encoding StandardEncoding def", "currentfile eexec", `/Subrs ${subrs.size} array`, ...Array.from(subrs, ([number, shown]) => `dup ${number} {\n${shown}} NP`),
      "/CharStrings 1 dict dup begin", `/${name} {`, body, "} ND", "end", "mark currentfile closefile", ""].join("\n")
    const fault = this.session.engine.faults(bytesOf(source), NO_PAIRS).find(it => it[3] === refused.code && it[4] === `glyph ${name}`)
    const hint = fault?.[6] ?? "", subr = hint.match(/^no Subr (.*)/)?.[1]
    return refused.code === LACKS_A_PART || subr && this.subr(subr) !== null ? "" : hint
  }

  /* The Subrs that a body calls by their numbers, and those that they call so, as they are shown. */
  called(body) {
    const found = new Map(), read = [body]
    for (const text of read)
      for (const [, number] of text.matchAll(CALL)) {
        const shown = found.has(number) ? null : this.subr(number)
        if (shown === null) continue
        found.set(number, shown)
        read.push(shown)
      }
    return found
  }

  /* A Subr as it is shown, or null where there is none. */
  subr(number) {
    try {
      return this.session.text(`show subr ${number}`)
    } catch (error) {
      if (error instanceof Refused) return null
      throw error
    }
  }

  file(kind) { return this.session.data(`print ${kind}`) }
}
