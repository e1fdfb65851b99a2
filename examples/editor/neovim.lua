-- Neovim 0.7 or later: shows what is wrong with shader documents and WGSL while they are written. Copy it to your configuration, and name your files.
local words = vim.env.SHADER_CHECK and vim.fn.json_decode(vim.env.SHADER_CHECK) or { "shader-check", "--lsp" }

vim.api.nvim_create_autocmd("BufReadPost", {
  pattern = vim.env.SHADER_CHECK and { "*.json", "*.wgsl" } or { "*.shader.json", "*.wgsl" },
  callback = function()
    local settings = { name = "shader-check", cmd = words, root_dir = vim.fn.getcwd() }
    if vim.lsp.start then
      vim.lsp.start(settings)
    else
      vim.lsp.buf_attach_client(0, vim.lsp.start_client(settings))
    end
  end,
})
