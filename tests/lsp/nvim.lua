-- What neovim's client shows of a source (fonts/demo.t1), by the settings of docs/EDITORS.md. Writes lines 'ok ..' or 'not ok ..'.
local failed = 0
local function wants(what, found, wanted)
  if vim.deep_equal(found, wanted) then return end
  failed = failed + 1
  io.stderr:write('not ok ' .. what .. '\n  wanted ' .. vim.inspect(wanted) .. '\n  found ' .. vim.inspect(found) .. '\n')
end
local function await(test) return vim.wait(15000, test, 10) end
local function client() return vim.lsp.get_active_clients()[1] end
local function codes() return vim.tbl_map(function(it) return { it.lnum, it.col, it.message } end, vim.diagnostic.get(0)) end
local function find(text) vim.fn.cursor(1, 1); vim.fn.search('\\V' .. text, 'cW') end
local function request(method, more)
  local answers = vim.lsp.buf_request_sync(0, method, vim.tbl_extend('force', vim.lsp.util.make_position_params(), more or {}), 15000)
  return (answers and (answers[client().id] or {}) or {}).result
end

wants('the server is attached', await(function() return client() ~= nil and client().server_capabilities ~= nil and next(client().server_capabilities) ~= nil end), true)
wants('the language', vim.bo.filetype, 't1')
find('/Aacute')
vim.cmd('normal! l')
wants('hover', vim.split(request('textDocument/hover').contents.value, '  \n')[2], 'width 600, box 10 0 310 892')
wants('no diagnostics', codes(), {})
find('4 callsubr')
vim.lsp.buf.definition()
wants('definition jumps', await(function() return vim.api.nvim_get_current_line():match('^dup 4 {') ~= nil end), true)
find('/acute')
vim.cmd('normal! l')
wants('references', #request('textDocument/references', { context = { includeDeclaration = true } }), 2)

find('300 hlineto')
vim.cmd('normal! 6lx')
wants('the text', vim.api.nvim_get_current_line(), '\t300 hlneto')
local line = vim.fn.line('.') - 1
local told = { line, 5, 'glyph A: an unknown word: hlneto (hlineto?)\ncomposites on it: Aacute' }
wants('its diagnostic', await(function() return vim.deep_equal(codes(), { told }) end), true)
vim.ui.select = function(items, _, choose) choose(items[1], 1) end
vim.lsp.buf.code_action()
wants('the action', await(function() return vim.api.nvim_get_current_line() == '\t300 hlineto' end), true)
wants('no diagnostics again', await(function() return #codes() == 0 end), true)

find('/V {')
vim.cmd('normal! l')
vim.lsp.buf.rename('W')
wants('rename', await(function() return vim.api.nvim_get_current_line():match('^/W {') ~= nil end), true)
find('/W {')
vim.cmd('normal! f{x')
wants('notes after a while', await(function() return #codes() == 2 end), true)
vim.cmd('normal! A{')
wants('undone', await(function() return #codes() == 0 end), true)
local symbols = request('textDocument/documentSymbol')
wants('symbols', vim.tbl_map(function(it) return it.name end, symbols[2].children), { '.notdef', 'Aacute', 'A', 'acute', 'W', 'space' })
vim.cmd('silent write')
vim.cmd('T1Write')
wants('files', await(function() return vim.fn.filereadable('demo.pfb') == 1 and vim.fn.filereadable('demo.afm') == 1 end), true)
vim.cmd('silent edit demo.pfb')
wants('a PFB as its source', vim.fn.getline(1), '%!PS-AdobeFont-1.0: Demo 001.000')
wants('and its language', vim.bo.filetype, 't1')
io.stderr:write(failed == 0 and 'all ok\n' or failed .. ' not ok\n')
vim.cmd(failed == 0 and 'qall!' or 'cquit!')
