-- Neovim: starts the language server for a program. It is sigc-lsp on the PATH, or the one of the folder that this stands in.
local function server()
  local found = vim.fn.exepath("sigc-lsp")
  if found ~= "" then
    return found
  end
  local here = vim.loop.fs_realpath(debug.getinfo(1, "S").source:sub(2)) or ""
  return (here:gsub("editors/vim/ftplugin/signal%.lua$", "sigc-lsp"))
end

local path = server()
if vim.fn.executable(path) == 0 then
  return
end
local options = { name = "sigc", cmd = { path }, root_dir = vim.fn.getcwd() }
if vim.lsp.start then
  vim.lsp.start(options)
else
  if not (vim.g.sigc_client and vim.lsp.get_client_by_id(vim.g.sigc_client)) then
    vim.g.sigc_client = vim.lsp.start_client(options)
  end
  vim.lsp.buf_attach_client(0, vim.g.sigc_client)
end

vim.bo.omnifunc = "v:lua.vim.lsp.omnifunc"
local function map(keys, call)
  vim.api.nvim_buf_set_keymap(0, "n", keys, "<cmd>lua vim.lsp.buf." .. call .. "()<cr>", { noremap = true, silent = true })
end
map("K", "hover")
map("gd", "definition")
map("gr", "references")
map("<leader>rn", "rename")
map("<leader>ca", "code_action")
