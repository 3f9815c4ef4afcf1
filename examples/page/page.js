// The page: what it shows of a font, and what is typed, dropped and saved.

const at = id => document.getElementById(id)
const DATA = JSON.parse(at("page-data").textContent)
const MARGIN = 60, FAR = 1e4
// What is set in the font to begin with.
const TEXT = "HAND-TO-PEN. ÉLAN VITAL"

// What is open: the engine, a font, the name of its file without the ending, and the glyph that is shown. Drafts are bodies as they were
// typed; those that are refused aren't in the font. Unsaved are "glyphs" and "kerning", where these were edited since they were saved.
let engine = null, font = null, base = "", shown = ""
const drafts = new Map(), refusedDrafts = new Set(), unsaved = new Set()

const escaped = text => text.replace(/[&<>"]/g, it => `&#${it.charCodeAt(0)};`)
const counted = (count, what) => `${count} ${what}${count === 1 ? "" : "s"}`
const say = text => { at("said").textContent = text }

/* What an action gives, and the milliseconds that it took. */
function timed(action) {
  const began = performance.now(), result = action()
  const took = performance.now() - began
  return [result, took < 10 ? took.toFixed(1) : took.toFixed(0)]
}

// What is refused.

const FAULTS_SHOWN = 8, REFUSED_SHOWN = 5
const meaning = ({ code }) => DATA.meanings[code]?.[0] ?? ""
const todo = ({ code }) => (DATA.meanings[code]?.[1] ?? "").replace(/^./, it => it.toUpperCase())

/* A fault of a file in a line. */
function faultLine([text, row, column, code, place, word, hint]) {
  const what = [`${text === "pairs" ? "pairs " : ""}${row}:${column}`, `${code} ${place}`.trim(), meaning({ code }), word].filter(Boolean).join(": ")
  return hint ? `${what} (${hint})` : what
}

/* Shows why a file isn't taken, above all else. */
function complain(name, error) {
  const part = selector => at("trouble").querySelector(selector), asFile = error.other, faults = error.faults ?? []
  const lines = faults.slice(0, FAULTS_SHOWN).map(faultLine)
  if (faults.length > lines.length) lines.push(`and ${faults.length - lines.length} more`)
  at("trouble").hidden = false
  part("strong").textContent = `${name} isn't taken: ${error.message}`
  part(".meaning").textContent = meaning(error) && `— ${meaning(error)}`
  part(".todo").textContent = asFile ? `As a font's file: ${asFile.message}, ${meaning(asFile)}. ${todo(asFile)}` : todo(error)
  part("pre").textContent = lines.join("\n")
}

// What is drawn, with y upward; SVG has y downward.

/* The window on a glyph: left, top, width and height, as SVG has them. It shows the heights that are usual, and all of the glyph. */
function view(cell, low = font.usual.low, high = font.usual.high) {
  const [left, bottom, right, top] = cell.box
  const from = Math.min(0, left) - MARGIN, to = Math.max(cell.width, right) + MARGIN
  const under = Math.min(low, bottom) - MARGIN, over = Math.max(high, top) + MARGIN
  return [from, -over, to - from, over - under]
}

const outline = path => `<path class="glyph" transform="scale(1 -1)" d="${path}"/>`
const picture = cell => `<svg viewBox="${view(cell).join(" ")}" aria-hidden="true">${outline(cell.path)}</svg>`

/* The points of an outline: those on it, those off it, and the handles between. */
function points(segments) {
  let on = "", off = "", handles = "", end = [0, 0]
  for (const { kind, at: [...xs] } of segments) {
    const to = xs.slice(-2)
    if (kind === "C") {
      off += `M${xs[0]} ${xs[1]}h0M${xs[2]} ${xs[3]}h0`
      handles += `M${end.join(" ")}L${xs[0]} ${xs[1]}M${xs[2]} ${xs[3]}L${to.join(" ")}`
    }
    on += `M${to.join(" ")}h0`
    end = to
  }
  const path = (kind, d) => `<path class="${kind}" d="${d}"/>`
  return `<g class="of-points" transform="scale(1 -1)">${path("handles", handles)}${path("off", off)}${path("on", on)}</g>`
}

function boxOf({ box: [left, bottom, right, top] }, size) {
  if (left === right && bottom === top) return ""
  const number = (x, y, value, kind = "") => `<text class="${kind}" x="${x}" y="${y}">${value}</text>`
  const across = (left + right) / 2, along = -(bottom + top) / 2, beside = size * .6
  return `<g class="of-box" style="font-size: ${size}px"><rect class="box" x="${left}" y="${-top}" width="${right - left}" height="${top - bottom}"/>`
    + number(across, -top - size / 2, top) + number(across, -bottom + size * 1.1, bottom)
    + number(left - beside, along, left, "before-it") + number(right + beside, along, right, "behind-it") + "</g>"
}

function drawLarge() {
  const cell = font.glyphs.get(shown), [from, over, wide, high] = view(cell, 0, font.usual.middle), was = font.first.get(shown).path
  at("name").textContent = shown
  at("facts").textContent = `${cell.code < 0 ? "no code" : `code ${cell.code}`} · width ${cell.width} · box ${cell.box.join(" ")}`
  at("large").setAttribute("viewBox", [from, over, wide, high].join(" "))
  const lines = `<path class="lines" d="M${from - FAR} 0h${wide + 2 * FAR}M0 ${over - FAR}v${high + 2 * FAR}M${cell.width} ${over - FAR}v${high + 2 * FAR}"/>`
  const ghost = was === cell.path ? "" : `<path class="was" transform="scale(1 -1)" d="${was}"/>`
  at("large").innerHTML = lines + boxOf(cell, high / 42) + outline(cell.path) + points(cell.segments) + ghost
}

// The grid.

const inGrid = name => at("grid").querySelector(`[data-name="${CSS.escape(name)}"]`)
const labels = name => `class="cell" data-name="${escaped(name)}" title="${escaped(name)}"`
const option = cell => `<div ${labels(cell.name)} role="option" tabindex="-1">${picture(cell)}${escaped(cell.name)}</div>`
const button = cell => `<button ${labels(cell.name)} type="button">${picture(cell)}${escaped(cell.name)}</button>`

function fillGrid() {
  at("grid").innerHTML = [...font.glyphs.values()].map(option).join("")
  choose()
}

function mark(name) {
  const cell = inGrid(name), isRefused = refusedDrafts.has(name)
  cell.setAttribute("aria-selected", name === shown)
  cell.tabIndex = name === shown ? 0 : -1
  cell.classList.toggle("edited", font.edited.has(name))
  cell.classList.toggle("draft", isRefused)
  cell.title = isRefused ? `${name}: what was typed is refused, and isn't in the font` : name
}

/* Draws glyphs anew that have changed. */
function renew(names) {
  for (const name of names) {
    const cell = inGrid(name)
    cell.querySelector("svg").outerHTML = picture(font.glyphs.get(name))
    cell.classList.remove("moved")
    void cell.offsetWidth // (so that it is shown again)
    cell.classList.add("moved")
    mark(name)
  }
}

function choose() {
  const word = at("search").value.trim().toLowerCase()
  const fits = it => !word || it.name.toLowerCase().includes(word) || String(it.code) === word || glyphOf(at("search").value.trim()) === it.name
  for (const cell of at("grid").children) cell.hidden = !fits(font.glyphs.get(cell.dataset.name))
}

/* The cell that an arrow leads to: beside, or in the next row at the same place. */
function neighbour(cell, key) {
  const cells = [...at("grid").children].filter(it => !it.hidden), place = cells.indexOf(cell)
  const wide = cells.filter(it => it.offsetTop === cells[0].offsetTop).length
  const step = { ArrowLeft: -1, ArrowRight: 1, ArrowUp: -wide, ArrowDown: wide }[key]
  return step && cells[place + step]
}

function open(name) {
  const before = shown
  shown = name
  if (font.glyphs.has(before)) mark(before)
  mark(name)
  inGrid(name).scrollIntoView({ block: "nearest" })
  at("body").value = drafts.get(name) ?? font.body(name)
  at("body").scrollTop = 0
  drawLarge()
  at("others").innerHTML = ""
  judge(null, "")
  if (drafts.has(name)) typed()
  at("revert").disabled = !drafts.has(name)
}

// A body.

/* Shows what the engine says of a body: that it is taken, or why not, with the word marked that has the fault. */
function judge(refused, taken) {
  const text = at("body").value, [from, to] = (refused && font.guilty(shown, text, refused)) ?? [0, 0]
  document.body.classList.toggle("refused", Boolean(refused))
  at("marks").innerHTML = to ? `${escaped(text.slice(0, from))}<mark>${escaped(text.slice(from, to))}</mark>${escaped(text.slice(to))}\n` : ""
  at("marks").scrollTop = at("body").scrollTop
  at("verdict").innerHTML = refused ? whyNot(refused, text, text.slice(from, to)) : taken && `<strong>Taken</strong> ${escaped(taken)}`
}

function whyNot(refused, text, word) {
  const what = meaning(refused), hint = what && font.hint(shown, text, refused)
  return `<strong>${escaped(refused.message)}</strong>${what && `: ${escaped(what)}`}${word && ` — <code>${escaped(word)}</code>`}`
    + `${hint && ` (${escaped(hint)})`}<br>${escaped(todo(refused))}`
}

function typed() {
  const text = at("body").value
  drafts.set(shown, text)
  at("revert").disabled = false
  try {
    const [changed, took] = timed(() => font.replace(shown, text)), others = changed.filter(it => it !== shown)
    refusedDrafts.delete(shown)
    unsaved.add("glyphs")
    judge(null, `and measured in ${took} ms.${others.length ? ` ${others.length} on it changed too:` : ""}`)
    renew(changed)
    mark(shown)
    at("others").innerHTML = others.map(it => button(font.glyphs.get(it))).join("")
    drawLarge()
    setText()
  } catch (error) {
    if (!(error instanceof Refused)) return stopped(error)
    refusedDrafts.add(shown)
    mark(shown)
    judge(error)
  }
}

function revert() {
  const body = font.first.get(shown).body
  at("body").value = body ?? font.body(shown)
  if (body !== null) typed()
  else judge(null, "")
  drafts.delete(shown)
  refusedDrafts.delete(shown)
  mark(shown)
  at("revert").disabled = true
}

// A line of text.

/* The glyph of a character: one that the table has for it, or by its number as uni2116 or u1F600, or of ASCII the one of its code. */
function glyphOf(character) {
  if ([...character].length !== 1) return undefined
  const number = character.codePointAt(0).toString(16).toUpperCase().padStart(4, "0")
  const byNumber = [...(number.length === 4 ? [`uni${number}`] : []), `u${number}`]
  const byCode = character > " " && character < "\u007f" ? [font.codes.get(character.charCodeAt(0))] : []
  return [...(DATA.characters[character] ?? []), ...byNumber, ...byCode].find(it => font.glyphs.has(it))
}

/* The glyphs of a text, and what of it has none. */
function glyphsOf(text) {
  const names = [], lacking = new Set()
  for (const [typed, given] of text.matchAll(/\/([^\s/]+) ?|[^]/gu)) {
    const name = given ?? glyphOf(typed)
    if (font.glyphs.has(name)) names.push(name)
    else lacking.add(typed)
  }
  return { names, lacking: [...lacking].join(" ") }
}

function setText() {
  const { names, lacking } = glyphsOf(at("text").value), pairs = new Set()
  at("lacking").textContent = lacking.trim() && `No glyph for: ${lacking}`
  let x = 0, low = 0, high = font.usual.middle, drawn = "", before = null
  for (const name of names) {
    const cell = font.glyphs.get(name), pair = `${before} ${name}`
    if (before) pairs.add(pair)
    x += font.pairs.get(pair) ?? 0
    drawn += `<g data-name="${escaped(name)}" transform="translate(${x} 0)">${outline(cell.path)}</g>`
    x += cell.width
    low = Math.min(low, cell.box[1])
    high = Math.max(high, cell.box[3])
    before = name
  }
  at("set").setAttribute("viewBox", `${-MARGIN} ${-high - MARGIN} ${Math.max(x, 1) + 2 * MARGIN} ${high - low + 2 * MARGIN}`)
  at("set").innerHTML = drawn
  at("set").dataset.width = x
  fillPairs([...pairs])
}

function fillPairs(pairs) {
  if (at("pairs").dataset.pairs !== pairs.join(" ")) {
    at("pairs").dataset.pairs = pairs.join(" ")
    at("pairs").innerHTML = pairs.map(it => `<label>${escaped(it)} <input type="number" data-pair="${escaped(it)}" placeholder="0"></label>`).join("")
  }
  for (const it of at("pairs").querySelectorAll("input")) if (it !== document.activeElement) it.value = font.pairs.get(it.dataset.pair) ?? ""
}

function kerned(input) {
  const [left, right] = input.dataset.pair.split(" "), value = input.value === "" ? null : Number(input.value)
  if (value !== null && !Number.isInteger(value)) return say(`${left} ${right} isn't taken: whole numbers only`)
  try {
    font.kern(left, right, value)
    unsaved.add("kerning")
    say(`${left} ${right}: ${input.value === "" ? "no pair" : input.value}`)
  } catch (error) {
    if (!(error instanceof Refused)) return stopped(error)
    say(`${left} ${right} isn't taken: ${error.message} ${meaning(error)}`)
  }
  setText()
}

/* A text to begin with: the font's name where it can be set, else the pairs, or the first letters. */
function someText() {
  const name = font.name, drawn = glyphsOf(name).names
  if (drawn.length === [...name].length) return name
  const pairs = [...font.pairs.keys()].slice(0, 6).join(" ").split(" ").filter(Boolean)
  const letters = [...font.glyphs.values()].filter(it => it.path).map(it => it.name).slice(0, 14)
  return (pairs.length ? pairs : letters).map(it => `/${it}`).join(" ")
}

// Files.

/* Opens a font in place of the one that is shown, which stays where the other is refused. Pairs with a fault are left out. */
function openFont(name, bytes, pairsName, pairs) {
  try {
    const [opened, took] = timed(() => Font.open(engine, bytes, pairs)), { without } = opened
    if (font) font.close()
    font = opened
    base = name.replace(/\.[^.]*$/, "") || font.fileName
    for (const it of [unsaved, drafts, refusedDrafts]) it.clear()
    at("trouble").hidden = true
    say(`${name}: ${counted(font.glyphs.size, "glyph")} read, judged, measured and drawn in ${took} ms${without ? ", without pairs" : ""}`)
    showFont()
    if (without) complain(pairsName, without)
  } catch (error) {
    if (!(error instanceof Refused)) return stopped(error)
    complain(name, error)
  }
}

/* Gives the font that is shown other pairs. Where they have a fault, its own ones stay. */
function openPairs(name, pairs) {
  try {
    const opened = Font.open(engine, font.file("source"), pairs), { without } = opened
    const [left, taken] = without ? [opened, font] : [font, Object.assign(opened, { first: font.first, edited: font.edited })]
    left.close()
    font = taken
    if (without) return complain(name, without)
    unsaved.add("kerning")
    at("trouble").hidden = true
    say(`${name}: ${counted(font.pairs.size, "kerning pair")}`)
    showCounts()
    setText()
  } catch (error) {
    if (!(error instanceof Refused)) return stopped(error)
    complain(name, error)
  }
}

/* Whether files may take the place of what isn't saved, which the user is asked where something isn't. */
function mayLose(name, lost) {
  const dialog = at("lose")
  if (!lost.length) return true
  if (dialog.open) return false
  dialog.querySelector("p").textContent = `${name} takes the place of what isn't saved: ${lost.join(", ")}.`
  dialog.returnValue = ""
  dialog.showModal()
  return new Promise(settle => dialog.addEventListener("close", () => settle(dialog.returnValue === "open"), { once: true }))
}

/* The refused drafts, in a few words. */
function refusedOnes() {
  const names = [...refusedDrafts], more = names.length - REFUSED_SHOWN
  return `the refused draft${names.length === 1 ? "" : "s"} of ${names.slice(0, REFUSED_SHOWN).join(", ")}${more > 0 ? ` and ${more} more` : ""}`
}

function showFont() {
  document.title = `${font.name} – t1edit`
  at("font").textContent = font.name
  showCounts()
  for (const it of document.querySelectorAll(".save")) it.disabled = false
  at("search").value = ""
  fillGrid()
  const cells = [...font.glyphs.values()], first = ["A", "a"].find(it => font.glyphs.has(it)) ?? (cells.find(it => it.path) ?? cells[0]).name
  shown = ""
  open(first)
  at("text").value = someText()
  setText()
}

function showCounts() {
  at("count").textContent = `${counted(font.glyphs.size, "glyph")} · ${counted(font.pairs.size, "kerning pair")}`
}

/* Takes the files that were dropped or chosen: a font, or kerning pairs, or both. Pairs alone are those of the font that is open. */
async function take(files) {
  let given = null, pairs = null
  for (const file of files) {
    const bytes = new Uint8Array(await file.arrayBuffer())
    if (isPairs(bytes)) pairs = { name: file.name, bytes }
    else given = { name: file.name, bytes }
  }
  const lost = [...unsaved].filter(it => given || it === "kerning")
  if (given && refusedDrafts.size) lost.push(refusedOnes())
  if (!(given || pairs) || !await mayLose((given ?? pairs).name, lost)) return
  if (given) openFont(given.name, given.bytes, pairs?.name, pairs?.bytes)
  else openPairs(pairs.name, pairs.bytes)
}

function save(kind) {
  const bytes = font.file(kind), name = `${base}.${kind === "source" ? "t1" : kind}`
  const link = Object.assign(document.createElement("a"), { href: URL.createObjectURL(new Blob([bytes])), download: name })
  link.click()
  setTimeout(() => URL.revokeObjectURL(link.href), 60000)
  unsaved.delete(kind === "afm" ? "kerning" : "glyphs")
  say(`${name}: ${counted(bytes.length, "byte")} saved${refusedDrafts.size ? `, without ${refusedOnes()}` : ""}`)
}

// What is proved.

function showProof() {
  const { proof, commit, kit, module, bytes } = DATA.facts
  document.body.classList.toggle("proved", Boolean(proof))
  at("about").textContent = proof ? "Made from a proved engine" : "Engine not proved"
  at("proof-state").textContent = `The engine is t1edit's library for C, as a WebAssembly module of ${Math.round(bytes / 1000)} kB.`
  const facts = { "The proof": proof, "Sources": commit, "Toolchain": kit, "Module, SHA-256": module }
  at("proof-facts").innerHTML = Object.entries(facts).filter(it => it[1]).map(([key, value]) => `<dt>${key}</dt><dd>${escaped(value)}</dd>`).join("")
}

function stopped(error) {
  document.body.classList.add("stopped")
  say(`The engine has stopped: ${error.message}`)
  throw error
}

// What the user does.

function listen() {
  const cellAt = event => event.target.closest("[data-name]")?.dataset.name
  const opens = event => { if (cellAt(event)) open(cellAt(event)) }
  for (const id of ["grid", "others", "set"]) at(id).addEventListener("click", opens)
  at("grid").addEventListener("keydown", event => {
    const next = neighbour(event.target.closest(".cell"), event.key)
    if (!next) return
    event.preventDefault()
    open(next.dataset.name)
    next.focus()
  })
  at("search").addEventListener("input", choose)
  at("search").addEventListener("keydown", event => {
    const found = event.key === "Enter" && at("grid").querySelector(".cell:not([hidden])")
    if (found) open(found.dataset.name)
  })
  at("body").addEventListener("input", typed)
  at("body").addEventListener("scroll", () => { at("marks").scrollTop = at("body").scrollTop })
  at("revert").addEventListener("click", revert)
  at("text").addEventListener("input", setText)
  at("pairs").addEventListener("change", event => kerned(event.target))
  for (const it of document.querySelectorAll(".save")) it.addEventListener("click", () => save(it.dataset.kind))
  for (const id of ["points", "boxes", "before"]) {
    const show = () => document.body.classList.toggle(id, at(id).checked)
    at(id).addEventListener("change", show)
    show()
  }
  at("about").addEventListener("click", () => at("proof").showModal())
  at("trouble").querySelector("button").addEventListener("click", () => { at("trouble").hidden = true })
  at("file").addEventListener("change", event => {
    take([...event.target.files])
    event.target.value = "" // (so that the same file can be chosen again)
  })
  addEventListener("keydown", event => {
    if (event.key !== "s" || !(event.ctrlKey || event.metaKey)) return
    event.preventDefault()
    save("pfb")
  })
  addEventListener("beforeunload", event => { if (unsaved.size || refusedDrafts.size) event.preventDefault() })
  addEventListener("dragover", event => {
    if (!event.dataTransfer.types.includes("Files")) return
    event.preventDefault()
    at("drop").hidden = false
  })
  addEventListener("dragleave", event => { if (!event.relatedTarget) at("drop").hidden = true })
  addEventListener("drop", event => {
    event.preventDefault()
    at("drop").hidden = true
    take(event.dataTransfer.files)
  })
}

async function begin() {
  showProof()
  try {
    engine = await Engine.load(DATA.module)
  } catch (error) {
    say("This browser can't run the engine: it needs WebAssembly with 64-bit addresses (memory64), as Chromium has it.")
    throw error
  }
  listen()
  openFont("sans.t1", bytesOf(DATA.font.t1), "sans.kern", bytesOf(DATA.font.kern))
  at("text").value = TEXT
  setText()
  say("Drop a font on this page, or open one: PFB, PFA or source. Here is one to begin with.")
}

begin()
