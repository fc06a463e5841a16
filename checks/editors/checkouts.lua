-- The part of checkouts.py in neovim 0.7 to 0.9, after the lines of docs/EDITORS.md: `nvim -u LINES -c 'luafile checkouts.lua'`.
-- The folder PLACE of the environment has `steps`: the files to open, the line that each gets at its top, unsaved, and the lists
-- that are right after each step. Step N begins once there is a file `begun N`. At its end `ended N` gets its seconds, and the
-- files that are wrong.
local place = vim.env.PLACE
local steps = vim.fn.json_decode(vim.fn.readfile(place .. '/steps'))
local buffers = {}

-- The diagnostics of a buffer: a list of lines and columns from 0, and texts. The folders of P102 are left out.
local function shown(buffer)
  local found = {}
  for _, it in ipairs(vim.diagnostic.get(buffer)) do
    table.insert(found, { it.lnum, it.col, (it.message:gsub('^(import ".*" is not found) in .*', '%1')) })
  end
  table.sort(found, function(x, y)
    if x[1] ~= y[1] then return x[1] < y[1] end
    if x[2] ~= y[2] then return x[2] < y[2] end
    return x[3] < y[3]
  end)
  return found
end

-- What the files show whose lists are not those that are right: a list of names and lists.
local function wrong(right)
  local found = {}
  for name, buffer in pairs(buffers) do
    local list = shown(buffer)
    if not vim.deep_equal(list, right[name]) then table.insert(found, { name, list }) end
  end
  return found
end

vim.o.hidden, vim.o.autoread = true, false
for _, name in ipairs(steps.names) do
  vim.cmd('silent edit ' .. vim.fn.fnameescape(name))
  buffers[name] = vim.fn.bufnr()
  vim.api.nvim_buf_set_lines(0, 0, 0, false, { steps.line })
end
-- An answer comes once the server has the whole tree, and all texts of the buffers.
vim.wait(60000, function() return #vim.lsp.get_active_clients() > 0 end, 20)
local params = { textDocument = vim.lsp.util.make_text_document_params() }
vim.lsp.buf_request_sync(0, 'textDocument/documentSymbol', params, 60000)
for number, right in ipairs(steps.lists) do
  vim.wait(600000, function() return vim.fn.filereadable(place .. '/begun ' .. number) == 1 end, 10)
  local start = vim.loop.hrtime()
  vim.wait(10000, function() return #wrong(right) == 0 end, 20)
  local seconds = (vim.loop.hrtime() - start) / 1e9
  -- What is right has to stay so.
  vim.wait(1000, function() return false end)
  vim.fn.writefile({ vim.fn.json_encode({ seconds, wrong(right) }) }, place .. '/new')
  vim.loop.fs_rename(place .. '/new', place .. '/ended ' .. number)
end
vim.cmd('qall!')
