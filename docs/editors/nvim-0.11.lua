-- neovim 0.11 and 0.12: init.lua. Diagnostics of a file depend on the files that it imports, and neovim pulls them only for the buffer that
-- changed; so after each change of one buffer the lines below pull them for the others too.
vim.filetype.add({ extension = { proto = 'proto' } })
vim.lsp.config('pq_server', {
  cmd = { '/path/bin/pq_server', 'stdio' },
  filetypes = { 'proto' },
  root_markers = { '.git' },
})
vim.lsp.enable('pq_server')

local pull = vim.uv.new_timer()
vim.api.nvim_create_autocmd('LspNotify', {
  callback = function(event)
    local client = vim.lsp.get_client_by_id(event.data.client_id)
    local method = event.data.method
    if not client or client.name ~= 'pq_server' then return end
    if method ~= 'textDocument/didOpen' and method ~= 'textDocument/didChange' then return end
    pull:start(200, 0, vim.schedule_wrap(function()
      for buffer in pairs(client.attached_buffers) do
        if vim.api.nvim_buf_is_loaded(buffer) and buffer ~= event.buf then
          client:request('textDocument/diagnostic', { textDocument = vim.lsp.util.make_text_document_params(buffer) }, nil, buffer)
        end
      end
    end))
  end,
})
