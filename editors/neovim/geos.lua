-- For Neovim 0.7 or later: put this file into the folder `plugin` of its configuration. `geos` has to be on the PATH.
vim.api.nvim_create_autocmd({ "BufNewFile", "BufRead" }, {
  pattern = { "*.asm", "*.tkv" },
  callback = function()
    vim.bo.filetype = "geos"
  end,
})

local client
vim.api.nvim_create_autocmd("FileType", {
  pattern = "geos",
  callback = function(event)
    local config = { name = "geos", cmd = { "geos", "lsp" }, root_dir = vim.fn.getcwd() }
    if vim.lsp.start then
      vim.lsp.start(config)
      return
    end
    -- Neovim 0.7 has no vim.lsp.start.
    client = client or vim.lsp.start_client(config)
    vim.lsp.buf_attach_client(event.buf, client)
  end,
})
