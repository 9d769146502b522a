-- Fluent files: how a comment begins, and the language server `ftl-lsp`.
-- The program is `ftl-lsp` on the path, or what vim.g.fluent_program names.
vim.bo.commentstring = "# %s"
vim.bo.expandtab = true
vim.bo.shiftwidth = 4
-- names have a `-` in them, and those of terms begin with one
vim.opt_local.iskeyword:append("-")

local program = vim.g.fluent_program or "ftl-lsp"
if vim.fn.executable(program) == 0 then
  local missing = "fluent: no program %s: install ftl-lsp, or name it in g:fluent_program"
  vim.notify_once(missing:format(program), vim.log.levels.WARN)
  return
end

-- The project of a file: the nearest folder above it that has an ftl.toml or a .git, else its own folder.
local function project_of(file)
  local own = vim.fn.fnamemodify(file, ":p:h")
  local folder, above = own, nil
  while folder ~= above do
    for _, mark in ipairs({ "ftl.toml", ".git" }) do
      if vim.loop.fs_stat(folder .. "/" .. mark) then
        return folder
      end
    end
    folder, above = vim.fn.fnamemodify(folder, ":h"), folder
  end
  return own
end

local buffer = vim.api.nvim_get_current_buf()
vim.bo.omnifunc = "v:lua.vim.lsp.omnifunc"
-- of a completed text of several lines neovim makes one, with NULs as its line ends
vim.api.nvim_create_autocmd("CompleteDone", {
  group = vim.api.nvim_create_augroup("fluent" .. buffer, { clear = true }),
  buffer = buffer,
  callback = function()
    local row, line = vim.fn.line("."), vim.api.nvim_get_current_line()
    if line:find("\0", 1, true) then
      local lines = vim.split(line, "\0", { plain = true })
      vim.api.nvim_buf_set_lines(buffer, row - 1, row, false, lines)
      vim.api.nvim_win_set_cursor(0, { row + #lines - 1, #lines[#lines] })
    end
  end,
})
local root = project_of(vim.api.nvim_buf_get_name(buffer))
local server = {
  name = "ftl",
  cmd = { program },
  root_dir = root,
}
if vim.lsp.start then
  vim.lsp.start(server)
else
  -- neovim 0.7: one server for the buffers of a project; whole texts, since the NULs of a completed text, sent as
  -- changes, would leave the server another text than the buffer has
  server.flags = { allow_incremental_sync = false }
  local clients = vim.g.fluent_clients or vim.empty_dict()
  clients[root] = clients[root] or vim.lsp.start_client(server)
  vim.g.fluent_clients = clients
  vim.lsp.buf_attach_client(buffer, clients[root])
end
