-- neovim 0.10: init.lua. As for 0.11, with the calls of that version.
vim.filetype.add({ extension = { proto = 'proto' } })
vim.api.nvim_create_autocmd('FileType', {
  pattern = 'proto',
  callback = function(event)
    vim.lsp.start({
      name = 'pq_server',
      cmd = { '/path/bin/pq_server', 'stdio' },
      root_dir = vim.fs.root(event.buf, '.git') or vim.fn.getcwd(),
    }, { bufnr = event.buf })
  end,
})

local pull = vim.uv.new_timer()
vim.api.nvim_create_autocmd('LspNotify', {
  callback = function(event)
    local client = vim.lsp.get_client_by_id(event.data.client_id)
    local method = event.data.method
    if not client or client.name ~= 'pq_server' then return end
    if method ~= 'textDocument/didOpen' and method ~= 'textDocument/didChange' then return end
    pull:start(200, 0, vim.schedule_wrap(function()
      for buffer in pairs(client.attached_buffers) do
        if vim.api.nvim_buf_is_loaded(buffer) and buffer ~= event.buf then
          client.request('textDocument/diagnostic', { textDocument = vim.lsp.util.make_text_document_params(buffer) }, nil, buffer)
        end
      end
    end))
  end,
})
