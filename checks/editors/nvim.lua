-- The steps in neovim 0.7 or later, after the lines of docs/EDITORS.md: `nvim --headless -u LINES -c 'luafile nvim.lua'`.
-- The folder PLACE of the environment has a.proto, b.proto and `steps`; the file `shown` gets a line for each step.
local place = vim.env.PLACE
local wanted = vim.fn.json_decode(vim.fn.readfile(place .. '/steps'))

-- The diagnostics of a.proto: a list of lines and columns from 0, and texts.
local function shown()
  local found = {}
  for _, it in ipairs(vim.diagnostic.get(vim.fn.bufnr('a.proto'))) do
    table.insert(found, { it.lnum, it.col, it.message })
  end
  table.sort(found, function(x, y) return x[1] < y[1] or x[1] == y[1] and x[2] < y[2] end)
  return found
end

local function step(name, act)
  act()
  vim.wait(10000, function() return vim.deep_equal(shown(), wanted[name]) end, 20)
  vim.fn.writefile({ vim.fn.json_encode({ name, shown() }) }, place .. '/shown', 'a')
end

local function edit(name, command)
  vim.cmd('buffer ' .. name)
  vim.cmd(command)
end

vim.o.hidden = true
step('open', function() vim.cmd('edit a.proto | edit b.proto') end)
step('break', function() edit('b.proto', '%s/Item/Itm/') end)
step('mend', function() edit('b.proto', 'undo') end)
step('empty', function() edit('b.proto', '%d') end)
step('fill', function() edit('b.proto', 'undo') end)
step('rename in b', function() edit('b.proto', '%s/Item/Part/') end)
step('rename in a', function() edit('a.proto', '%s/Item/Part/') end)
step('close b', function() vim.cmd('bdelete! b.proto') end)
step('save b', function()
  vim.cmd('edit b.proto')
  edit('b.proto', '%s/Item/Part/')
  vim.cmd('write | bdelete')
end)
local folder = vim.fn.fnamemodify(vim.api.nvim_buf_get_name(vim.fn.bufnr('a.proto')), ':h')
step('write b', function() vim.loop.fs_copyfile(place .. '/b-before.proto', folder .. '/b.proto') end)
vim.cmd('qall!')
